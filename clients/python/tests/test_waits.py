"""Receives that wait. Expected: docs/PROFILE.md, sections 17 and 25, and what the docstring of Replay says of the clock."""

import json
import unittest

from support import ReplayCase

POLICY = json.dumps({"deadLetterTargetArn": "arn:aws:sqs:elasticmq:000000000000:dead", "maxReceiveCount": 1})


class Waits(ReplayCase):
    def current(self):
        """Returns what has happened in the current minute."""
        return self.replay.statistics("jobs")["current"]

    def test_nothing_comes(self):
        self.queue()
        self.assertEqual(self.bodies(WaitTimeSeconds=20), [])
        self.assertEqual(self.replay.now, 20_000)
        self.assertEqual(self.current()["emptyReceives"], 1)

    def test_something_is_visible(self):
        self.queue()
        self.send()
        self.assertEqual(self.bodies(WaitTimeSeconds=20), ["a"])
        self.assertEqual(self.replay.now, 0)

    def test_a_delay_ends_within_the_wait(self):
        self.queue()
        self.replay.at(123)
        self.send("late", DelaySeconds=9)
        self.send("soon", DelaySeconds=7)
        self.replay.at(1_000)
        self.assertEqual(self.bodies(WaitTimeSeconds=20, MaxNumberOfMessages=10), ["soon"])
        self.assertEqual(self.replay.now, 7_123)
        self.assertEqual(self.bodies(WaitTimeSeconds=1), [])
        self.assertEqual(self.replay.now, 8_123)
        self.assertEqual(self.bodies(WaitTimeSeconds=20), ["late"])
        self.assertEqual(self.replay.now, 9_123)
        self.assertEqual((self.current()["received"], self.current()["emptyReceives"]), (2, 1))

    def test_a_delay_ends_with_the_wait_or_a_millisecond_later(self):
        self.queue()
        self.replay.at(1)
        self.send(DelaySeconds=20)
        self.assertEqual(self.bodies(WaitTimeSeconds=20), ["a"])
        self.assertEqual(self.replay.now, 20_001)
        self.replay.advance(seconds=9.999)
        self.assertEqual(self.bodies(WaitTimeSeconds=20), [])
        self.assertEqual(self.replay.now, 50_000)
        self.assertEqual(self.bodies(WaitTimeSeconds=20), ["a"])
        self.assertEqual(self.replay.now, 50_001)

    def test_a_timeout_ends_that_was_changed(self):
        self.queue()
        self.send()
        handle = self.receive(VisibilityTimeout=5)[0]["ReceiptHandle"]
        self.replay.at(4_999)
        self.done("ChangeMessageVisibility", QueueUrl="jobs", ReceiptHandle=handle, VisibilityTimeout=10)
        self.assertEqual(self.bodies(WaitTimeSeconds=20), ["a"])
        self.assertEqual(self.replay.now, 14_999)

    def test_a_message_that_is_gone_is_not_waited_for(self):
        self.queue()
        self.send()
        handle = self.receive(VisibilityTimeout=5)[0]["ReceiptHandle"]
        self.done("DeleteMessage", QueueUrl="jobs", ReceiptHandle=handle)
        self.assertEqual(self.bodies(WaitTimeSeconds=20), [])
        self.assertEqual(self.replay.now, 20_000)

    def test_settings_of_the_queue_count_at_each_request(self):
        self.queue(DelaySeconds=3, VisibilityTimeout=4, ReceiveMessageWaitTimeSeconds=5)
        self.send("first")
        self.done("SetQueueAttributes", QueueUrl="jobs", Attributes={"DelaySeconds": "8"})
        self.send("second")
        self.assertEqual(self.bodies(), ["first"])
        self.assertEqual(self.replay.now, 3_000)
        self.done("SetQueueAttributes", QueueUrl="jobs", Attributes={"VisibilityTimeout": "0"})
        self.assertEqual(self.bodies(), ["first"])
        self.assertEqual(self.replay.now, 7_000)
        self.assertEqual(self.bodies(WaitTimeSeconds=0), ["first"])
        self.assertEqual(self.replay.now, 7_000)

    def test_a_new_setting_counts_for_what_is_waited_for(self):
        self.queue(DelaySeconds=3, VisibilityTimeout=4)
        self.send()
        self.assertEqual(len(self.receive(WaitTimeSeconds=20)), 1)
        self.done("SetQueueAttributes", QueueUrl="jobs", Attributes={"DelaySeconds": "9", "VisibilityTimeout": "6"})
        self.assertEqual(len(self.receive(WaitTimeSeconds=20)), 1)
        self.assertEqual(self.replay.now, 7_000)
        self.assertEqual(len(self.receive(WaitTimeSeconds=20, VisibilityTimeout=43_200)), 1)
        self.assertEqual(self.replay.now, 13_000)
        self.send()
        self.assertEqual(len(self.receive(WaitTimeSeconds=20)), 1)
        self.assertEqual(self.replay.now, 22_000)

    def test_a_queue_that_is_made_again_has_other_settings(self):
        self.queue(DelaySeconds=3)
        self.send()
        self.done("DeleteQueue", QueueUrl="jobs")
        self.queue(DelaySeconds=9)
        self.send()
        self.assertEqual(self.bodies(WaitTimeSeconds=20), ["a"])
        self.assertEqual(self.replay.now, 9_000)

    def test_entries_of_batches(self):
        self.queue(DelaySeconds=6)
        entries = [{"Id": "x", "MessageBody": "x", "DelaySeconds": 7}, {"Id": "y", "MessageBody": "y"}, {"Id": "z", "MessageBody": "", "DelaySeconds": 2}]
        self.done("SendMessageBatch", QueueUrl="jobs", Entries=entries)
        self.assertEqual(self.bodies(WaitTimeSeconds=20), ["y"])
        self.assertEqual(self.replay.now, 6_000)
        handle = self.receive(WaitTimeSeconds=20, VisibilityTimeout=15)[0]["ReceiptHandle"]
        self.assertEqual(self.replay.now, 7_000)
        changes = [{"Id": "x", "ReceiptHandle": handle, "VisibilityTimeout": 2}]
        self.done("ChangeMessageVisibilityBatch", QueueUrl="jobs", Entries=changes)
        self.assertEqual(self.bodies(WaitTimeSeconds=20), ["x"])
        self.assertEqual(self.replay.now, 9_000)

    def test_a_message_that_only_leaves_ends_the_wait(self):
        self.queue("dead")
        self.queue(VisibilityTimeout=4, RedrivePolicy=POLICY)
        self.send()
        self.assertEqual(self.bodies(), ["a"])
        self.assertEqual(self.bodies(WaitTimeSeconds=20), [])
        self.assertEqual(self.replay.now, 4_000)
        self.assertEqual(self.bodies("dead", WaitTimeSeconds=20), ["a"])
        self.assertEqual(self.replay.now, 4_000)

    def test_each_queue_waits_for_its_own_messages(self):
        self.queue("other")
        self.queue()
        self.send(queue="other", DelaySeconds=3)
        self.send(DelaySeconds=5)
        self.assertEqual(self.bodies("http://localhost:9324/000000000000/jobs", WaitTimeSeconds=20), ["a"])
        self.assertEqual(self.replay.now, 5_000)

    def test_what_is_refused_moves_no_clock(self):
        self.queue()
        self.assertEqual(self.refused("ReceiveMessage", QueueUrl="none", WaitTimeSeconds=20), "QueueDoesNotExist")
        self.assertEqual(self.refused("ReceiveMessage", QueueUrl="jobs", WaitTimeSeconds=21), "InvalidParameterValue")
        self.assertEqual(self.refused("ReceiveMessage", QueueUrl="jobs", WaitTimeSeconds="20"), "SerializationException")
        self.assertEqual(self.refused("ReceiveMessage", QueueUrl="jobs", WaitTimeSeconds=20, MaxNumberOfMessages=11), "InvalidParameterValue")
        self.assertEqual(self.refused("ReceiveMessage", QueueUrl="jobs", WaitTimeSeconds=20, AttributeNames=["Nothing"]), "InvalidAttributeName")
        self.assertEqual(self.refused("ReceiveMessage", WaitTimeSeconds=20), "InvalidParameterValue")
        self.assertEqual(self.refused("ReceiveMessage", QueueUrl=1, WaitTimeSeconds=20), "SerializationException")
        self.assertEqual(self.replay.ask("ReceiveMessage", b"[]").status, 400)
        self.assertEqual(self.replay.now, 0)

    def test_what_is_refused_sets_nothing_that_is_waited_for(self):
        self.queue(MaximumMessageSize=1024, DelaySeconds=5)
        self.assertEqual(self.refused("SendMessage", QueueUrl="jobs", MessageBody=1025 * "a"), "InvalidParameterValue")
        self.assertEqual(self.bodies(WaitTimeSeconds=20), [])
        self.assertEqual(self.replay.now, 20_000)


class LimitOfMessagesInFlight(ReplayCase):
    config = "[limits]\nin_flight = 1\n"

    def test_a_receive_at_the_limit_waits_here(self):
        self.queue(VisibilityTimeout=30)
        self.send()
        self.assertEqual(self.bodies(), ["a"])
        self.assertEqual(self.refused("ReceiveMessage", QueueUrl="jobs"), "OverLimit")
        self.assertEqual(self.refused("ReceiveMessage", QueueUrl="jobs", WaitTimeSeconds=20), "OverLimit")
        self.assertEqual(self.replay.now, 20_000)
        self.assertEqual(self.bodies(WaitTimeSeconds=20), ["a"])
        self.assertEqual(self.replay.now, 30_000)


class Skipped(ReplayCase):
    waits = "skip"

    def test_no_receive_waits(self):
        self.queue(ReceiveMessageWaitTimeSeconds=20)
        self.send(DelaySeconds=1)
        self.assertEqual(self.bodies(WaitTimeSeconds=20), [])
        self.assertEqual(self.bodies(), [])
        self.assertEqual(self.replay.now, 0)
        self.replay.advance(seconds=1)
        self.assertEqual(self.bodies(WaitTimeSeconds=20), ["a"])

    def test_there_are_two_ways(self):
        self.assertRaises(ValueError, self.started, waits="never")


if __name__ == "__main__":
    unittest.main()
