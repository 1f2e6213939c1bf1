"""A consumer that leaves a message it fails at in its queue. What fails three times goes to the dead-letter queue."""

import json
import logging

TRIES = 3


def make_queues(sqs):
    """Makes the queue and its dead-letter queue, and returns their URLs."""
    dead = sqs.create_queue(QueueName="orders-dead")["QueueUrl"]
    arn = sqs.get_queue_attributes(QueueUrl=dead, AttributeNames=["QueueArn"])["Attributes"]["QueueArn"]
    policy = json.dumps({"deadLetterTargetArn": arn, "maxReceiveCount": TRIES})
    orders = sqs.create_queue(QueueName="orders", Attributes={"VisibilityTimeout": "30", "RedrivePolicy": policy})["QueueUrl"]
    return orders, dead


def consume(sqs, queue_url, handle):
    """Handles all messages that there are. One that is not handled stays, and is tried again when its timeout is over."""
    while True:
        messages = sqs.receive_message(QueueUrl=queue_url, MaxNumberOfMessages=10).get("Messages", [])
        for message in messages:
            try:
                handle(message["Body"])
            except Exception:
                logging.exception("order %s failed", message["MessageId"])
                continue
            sqs.delete_message(QueueUrl=queue_url, ReceiptHandle=message["ReceiptHandle"])
        if not messages:
            return
