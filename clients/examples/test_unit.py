import unittest

from jutkariq import ReplayMixin


class Delays(ReplayMixin, unittest.TestCase):
    sqs_config = '[[queue]]\nname = "jobs"\n'

    def test_a_delay_of_fifteen_minutes(self):
        self.sqs.send_message(QueueUrl="jobs", MessageBody="hello", DelaySeconds=900)
        self.replay.advance(minutes=15)
        self.assertEqual(self.replay.counts("jobs").visible, 1)
