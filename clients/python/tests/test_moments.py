"""Delays, timeouts and retention end at their millisecond. Expected: the API reference of SQS for the spans, docs/PROFILE.md for the moment."""

import unittest
from datetime import datetime, timezone

from support import ReplayCase


class Moments(ReplayCase):
    def test_a_delay_of_15_minutes(self):
        self.queue()
        self.send(DelaySeconds=900)
        self.replay.advance(seconds=899.999)
        self.assertEqual(self.replay.counts("jobs"), (0, 1, 0))
        self.replay.advance(milliseconds=1)
        self.assertEqual(self.replay.counts("jobs"), (1, 0, 0))

    def test_a_timeout_of_12_hours(self):
        self.queue(VisibilityTimeout=43_200)
        self.send()
        self.assertEqual(self.bodies(), ["a"])
        self.replay.advance(hours=12, milliseconds=-1)
        self.assertEqual(self.replay.counts("jobs"), (0, 0, 1))
        self.assertEqual(self.bodies(), [])
        self.replay.advance(milliseconds=1)
        self.assertEqual(self.replay.counts("jobs"), (1, 0, 0))
        self.assertEqual(self.bodies(), ["a"])

    def test_a_retention_of_14_days(self):
        self.queue(MessageRetentionPeriod=14 * 24 * 3600)
        self.replay.advance(milliseconds=3)
        self.send()
        self.replay.advance(days=14, milliseconds=-1)
        self.assertEqual(self.replay.counts("jobs"), (1, 0, 0))
        self.replay.advance(milliseconds=1)
        self.assertEqual(self.replay.counts("jobs"), (0, 0, 0))

    def test_a_change_of_the_timeout(self):
        self.queue()
        self.send()
        handle = self.receive()[0]["ReceiptHandle"]
        self.replay.advance(seconds=29.999)
        self.done("ChangeMessageVisibility", QueueUrl="jobs", ReceiptHandle=handle, VisibilityTimeout=30)
        self.replay.advance(seconds=29.999)
        self.assertEqual(self.replay.counts("jobs"), (0, 0, 1))
        self.replay.advance(milliseconds=1)
        self.assertEqual(self.replay.counts("jobs"), (1, 0, 0))


class Clock(ReplayCase):
    def test_it_begins_at_0_and_stands_still(self):
        self.queue()
        self.send()
        self.assertEqual(self.replay.now, 0)
        self.assertEqual(self.receive(AttributeNames=["SentTimestamp"])[0]["Attributes"], {"SentTimestamp": "0"})

    def test_it_moves_by_all_units(self):
        moment = self.replay.advance(days=1, hours=2, minutes=3, seconds=4.5, milliseconds=6)
        self.assertEqual(moment, 1000 * (24 * 3600 + 2 * 3600 + 3 * 60 + 4) + 506)
        self.assertEqual(self.replay.now, moment)

    def test_it_moves_to_a_moment(self):
        self.assertEqual(self.replay.at(5), 5)
        self.assertEqual(self.replay.at(5), 5)
        self.assertEqual(self.replay.at(datetime(2024, 2, 29, tzinfo=timezone.utc)), 1_709_164_800_000)
        self.queue()
        attributes = self.done("GetQueueAttributes", QueueUrl="jobs", AttributeNames=["CreatedTimestamp"])["Attributes"]
        self.assertEqual(attributes, {"CreatedTimestamp": "1709164800"})

    def test_it_never_goes_back(self):
        self.replay.at(5)
        for move in (lambda: self.replay.at(4), lambda: self.replay.advance(milliseconds=-1), lambda: self.replay.at(2**62)):
            self.assertRaises(ValueError, move)
        self.assertEqual(self.replay.now, 5)

    def test_it_has_no_parts_of_a_millisecond_and_no_dates_without_a_zone(self):
        self.assertRaises(ValueError, self.replay.advance, milliseconds=0.5)
        self.assertRaises(TypeError, self.replay.at, datetime(2024, 2, 29))
        self.assertEqual(self.replay.now, 0)


ALARM = """
[[queue]]
name = "jobs"

[[alarm]]
queue = "jobs"
name = "deep"
metric = "ApproximateNumberOfMessagesVisible"
operator = "GreaterThanThreshold"
threshold = 0
minutes = 3
breaches = 2
"""


class Numbers(ReplayCase):
    config = ALARM

    def test_alarms(self):
        self.replay.advance(minutes=3, milliseconds=-1)
        self.assertEqual(self.replay.alarms("jobs"), {"deep": "INSUFFICIENT_DATA"})
        self.replay.advance(milliseconds=1)
        self.assertEqual(self.replay.alarms("jobs"), {"deep": "OK"})
        self.send()
        self.replay.advance(minutes=2, milliseconds=-1)
        self.assertEqual(self.replay.alarms("jobs"), {"deep": "OK"})
        self.replay.advance(milliseconds=1)
        self.assertEqual(self.replay.alarms("jobs"), {"deep": "ALARM"})

    def test_rows_and_statistics(self):
        self.send("four")
        self.replay.advance(minutes=1)
        self.send("three", DelaySeconds=5)
        row = self.replay.rows("http://localhost:9324/000000000000/jobs")[0]
        self.assertEqual((row["minute"], row["sent"], row["sentSize"], row["visible"], row["age"]), (0, 1, 4, 1, 59))
        told = self.replay.statistics("jobs")
        self.assertEqual((told["clock"], told["age"], told["visible"], told["delayed"], told["current"]["sent"]), (60_000, 60, 1, 1, 1))


if __name__ == "__main__":
    unittest.main()
