#!/usr/bin/env python3
"""A tour of the server with boto3, as any client of Amazon SQS makes it.

Usage: tour.py [endpoint], by default http://localhost:9324. The server is started before, as by
`make run`. Each step is compared with what docs/PROFILE.md says; the
first one that differs ends the tour with status 1.
"""

import json
import sys
import time

import boto3
from botocore.config import Config

ENDPOINT = sys.argv[1] if len(sys.argv) > 1 else "http://localhost:9324"


def client():
    """A client whose credentials the server does not look at."""
    return boto3.client(
        "sqs",
        endpoint_url=ENDPOINT,
        region_name="elasticmq",
        aws_access_key_id="x",
        aws_secret_access_key="x",
        config=Config(retries={"max_attempts": 0}),
    )


def check(what, found, wanted):
    """Prints a step, and ends the tour where it is not as wanted."""
    if found != wanted:
        print(f"{what}: found {found!r}, wanted {wanted!r}", file=sys.stderr)
        sys.exit(1)
    print(f"{what}: {found!r}")


def counts(sqs, url):
    """How many messages are visible, delayed and in flight."""
    names = [
        "ApproximateNumberOfMessages",
        "ApproximateNumberOfMessagesDelayed",
        "ApproximateNumberOfMessagesNotVisible",
    ]
    attributes = sqs.get_queue_attributes(QueueUrl=url, AttributeNames=names)["Attributes"]
    return [int(attributes[name]) for name in names]


def queues(sqs):
    """Two queues, the second of which gives its dead letters to the first."""
    dead = sqs.create_queue(QueueName="tour-dead")["QueueUrl"]
    policy = {
        "deadLetterTargetArn": "arn:aws:sqs:elasticmq:000000000000:tour-dead",
        "maxReceiveCount": 1,
    }
    jobs = sqs.create_queue(
        QueueName="tour-jobs",
        Attributes={"VisibilityTimeout": "1", "RedrivePolicy": json.dumps(policy)},
    )["QueueUrl"]
    check("url", sqs.get_queue_url(QueueName="tour-jobs")["QueueUrl"], jobs)
    listed = sqs.list_queues(QueueNamePrefix="tour-")["QueueUrls"]
    check("queues", [url.rsplit("/", 1)[1] for url in listed], ["tour-dead", "tour-jobs"])
    sources = sqs.list_dead_letter_source_queues(QueueUrl=dead)["queueUrls"]
    check("sources", sources, [jobs])
    return dead, jobs


def messages(sqs, url):
    """A message that is sent with an attribute, received, changed and deleted."""
    sqs.send_message(
        QueueUrl=url,
        MessageBody="hello",
        MessageAttributes={"kind": {"DataType": "String", "StringValue": "greeting"}},
    )
    check("sent", counts(sqs, url), [1, 0, 0])
    received = sqs.receive_message(
        QueueUrl=url,
        AttributeNames=["ApproximateReceiveCount"],
        MessageAttributeNames=["All"],
    )["Messages"][0]
    check("body", received["Body"], "hello")
    check("receives", received["Attributes"]["ApproximateReceiveCount"], "1")
    check("attribute", received["MessageAttributes"]["kind"]["StringValue"], "greeting")
    check("in flight", counts(sqs, url), [0, 0, 1])
    handle = received["ReceiptHandle"]
    sqs.change_message_visibility(QueueUrl=url, ReceiptHandle=handle, VisibilityTimeout=30)
    sqs.delete_message(QueueUrl=url, ReceiptHandle=handle)
    check("deleted", counts(sqs, url), [0, 0, 0])


def batches(sqs, url):
    """Batches, whose entries succeed and fail by themselves."""
    answer = sqs.send_message_batch(
        QueueUrl=url,
        Entries=[
            {"Id": "good", "MessageBody": "a"},
            {"Id": "late", "MessageBody": "b", "DelaySeconds": 900},
            {"Id": "bad", "MessageBody": "\x01"},
        ],
    )
    check("done", [entry["Id"] for entry in answer["Successful"]], ["good", "late"])
    check("failed", [entry["Code"] for entry in answer["Failed"]], ["InvalidMessageContents"])
    check("counts", counts(sqs, url), [1, 1, 0])
    handle = sqs.receive_message(QueueUrl=url)["Messages"][0]["ReceiptHandle"]
    answer = sqs.delete_message_batch(
        QueueUrl=url, Entries=[{"Id": "good", "ReceiptHandle": handle}]
    )
    check("deleted", [entry["Id"] for entry in answer["Successful"]], ["good"])
    sqs.purge_queue(QueueUrl=url)
    check("purged", counts(sqs, url), [0, 0, 0])


def dead_letters(sqs, dead, jobs):
    """A message that was received as often as it may be goes to the dead letters, and is waited for there."""
    sent = sqs.send_message(QueueUrl=jobs, MessageBody="fails")["MessageId"]
    check("received", len(sqs.receive_message(QueueUrl=jobs)["Messages"]), 1)
    time.sleep(1.2)
    check("gone", sqs.receive_message(QueueUrl=jobs).get("Messages"), None)
    found = sqs.receive_message(
        QueueUrl=dead, WaitTimeSeconds=5, AttributeNames=["DeadLetterQueueSourceArn"]
    )["Messages"][0]
    check("dead letter", found["MessageId"], sent)
    source = found["Attributes"]["DeadLetterQueueSourceArn"]
    check("source", source, "arn:aws:sqs:elasticmq:000000000000:tour-jobs")


def long_poll(sqs, url):
    """A receive that waits and finds nothing."""
    begun = time.monotonic()
    check("nothing", sqs.receive_message(QueueUrl=url, WaitTimeSeconds=1).get("Messages"), None)
    check("waited", 0.9 <= time.monotonic() - begun < 5, True)


def refusals(sqs, dead, jobs):
    """Settings that differ, handles that are none, and queues that are gone."""
    try:
        sqs.create_queue(QueueName="tour-jobs", Attributes={"VisibilityTimeout": "7"})
        check("created twice", True, False)
    except sqs.exceptions.QueueNameExists as error:
        check("other settings", error.response["ResponseMetadata"]["HTTPStatusCode"], 400)
    try:
        sqs.delete_message(QueueUrl=jobs, ReceiptHandle="no handle")
        check("deleted", True, False)
    except sqs.exceptions.ReceiptHandleIsInvalid as error:
        check("handle", error.response["Error"]["Message"], "The receipt handle is not valid.")
    sqs.set_queue_attributes(QueueUrl=jobs, Attributes={"RedrivePolicy": ""})
    for url in (jobs, dead):
        sqs.delete_queue(QueueUrl=url)
    try:
        sqs.get_queue_url(QueueName="tour-jobs")
        check("found", True, False)
    except sqs.exceptions.QueueDoesNotExist as error:
        check("gone", error.response["Error"]["Message"], "The specified queue does not exist.")


def main():
    sqs = client()
    dead, jobs = queues(sqs)
    messages(sqs, jobs)
    batches(sqs, jobs)
    dead_letters(sqs, dead, jobs)
    long_poll(sqs, dead)
    refusals(sqs, dead, jobs)
    print("the tour is done")


if __name__ == "__main__":
    main()
