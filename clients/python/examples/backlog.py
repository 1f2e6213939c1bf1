"""A consumer that does so many jobs a minute and no more, and who is told when that is too few."""


def work(sqs, queue_url, do, most):
    """Does up to so many jobs, as long as there are any, and returns how many it has done."""
    for done in range(most):
        messages = sqs.receive_message(QueueUrl=queue_url).get("Messages", [])
        if not messages:
            return done
        do(messages[0]["Body"])
        sqs.delete_message(QueueUrl=queue_url, ReceiptHandle=messages[0]["ReceiptHandle"])
    return most


def to_call(alarms):
    """Returns the names of the alarms for which somebody is called, of a queue's alarms and their states."""
    return sorted(name for name, state in alarms.items() if state == "ALARM")
