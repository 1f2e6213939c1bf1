"""Reminders that are due at a time. SQS delays a message by 15 minutes at most, so a later one is sent on until it is due."""

import json
import math
import time

LONGEST_DELAY = 900


def remind(sqs, queue_url, text, due, now=time.time):
    """Schedules a reminder for a time, in seconds since 1970."""
    delay = max(0, min(LONGEST_DELAY, math.ceil(due - now())))
    sqs.send_message(QueueUrl=queue_url, MessageBody=json.dumps({"text": text, "due": due}), DelaySeconds=delay)


def due_reminders(sqs, queue_url, now=time.time):
    """Returns the texts of the reminders that are due, and takes them out of the queue."""
    texts = []
    while True:
        messages = sqs.receive_message(QueueUrl=queue_url, MaxNumberOfMessages=10).get("Messages", [])
        if not messages:
            return texts
        for message in messages:
            reminder = json.loads(message["Body"])
            if reminder["due"] <= now():
                texts.append(reminder["text"])
            else:
                remind(sqs, queue_url, reminder["text"], reminder["due"], now)
            sqs.delete_message(QueueUrl=queue_url, ReceiptHandle=message["ReceiptHandle"])
