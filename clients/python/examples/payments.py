"""Two consumers of payments. The first charges each payment that it receives, and so charges twice what it receives twice. The second does not."""


def take_payments(sqs, queue_url, charge):
    """Takes up to ten payments and charges them, one after another."""
    for message in sqs.receive_message(QueueUrl=queue_url, MaxNumberOfMessages=10).get("Messages", []):
        charge(message["Body"])
        sqs.delete_message(QueueUrl=queue_url, ReceiptHandle=message["ReceiptHandle"])


def take_payments_once(sqs, queue_url, charge, taken):
    """Does the same, but for the payments that were taken before: `taken` has their ids, and is shared by all consumers."""
    for message in sqs.receive_message(QueueUrl=queue_url, MaxNumberOfMessages=10).get("Messages", []):
        if message["MessageId"] not in taken:
            taken.add(message["MessageId"])
            charge(message["Body"])
        sqs.delete_message(QueueUrl=queue_url, ReceiptHandle=message["ReceiptHandle"])
