"""A consumer of long jobs that keeps its message while it works. The timeout is short, so that a job whose worker died is soon taken again."""

TIMEOUT = 60


def work_once(sqs, queue_url, do):
    """Takes one job, waiting for one, and does it. `do` gets the job and a function to call between its steps, at least once a minute."""
    for message in sqs.receive_message(QueueUrl=queue_url, VisibilityTimeout=TIMEOUT, WaitTimeSeconds=20).get("Messages", []):
        handle = message["ReceiptHandle"]

        def still_here():
            sqs.change_message_visibility(QueueUrl=queue_url, ReceiptHandle=handle, VisibilityTimeout=TIMEOUT)

        do(message["Body"], still_here)
        sqs.delete_message(QueueUrl=queue_url, ReceiptHandle=handle)
