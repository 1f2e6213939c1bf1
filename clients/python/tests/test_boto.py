"""boto3 over a replay. Expected: the API reference of SQS, and docs/PROFILE.md, sections 7 and 26."""

import time
import unittest
from concurrent.futures import ThreadPoolExecutor

from support import ReplayCase, needs_boto3

from jutkariq import ProgramFailed, ReplayMixin


@needs_boto3
class Clients(ReplayCase):
    def setUp(self):
        super().setUp()
        self.client = self.replay.client()

    def test_a_message_with_attributes_comes_back(self):
        url = self.client.create_queue(QueueName="jobs")["QueueUrl"]
        kinds = {"kind": {"DataType": "String", "StringValue": "Grüße"}, "key": {"DataType": "Binary", "BinaryValue": b"\x00\xff"}}
        sent = self.client.send_message(QueueUrl=url, MessageBody="line\nfeed and \u2028", MessageAttributes=kinds)
        message = self.client.receive_message(QueueUrl=url, MessageAttributeNames=["All"])["Messages"][0]
        self.assertEqual(message["Body"], "line\nfeed and \u2028")
        self.assertEqual(message["MessageAttributes"], kinds)
        self.assertEqual(message["MD5OfMessageAttributes"], sent["MD5OfMessageAttributes"])
        self.assertEqual(sent["ResponseMetadata"]["HTTPStatusCode"], 200)

    def test_moments(self):
        self.client.create_queue(QueueName="jobs")
        self.client.send_message(QueueUrl="jobs", MessageBody="a", DelaySeconds=900)
        self.replay.advance(seconds=899.999)
        self.assertNotIn("Messages", self.client.receive_message(QueueUrl="jobs"))
        self.replay.advance(milliseconds=1)
        self.assertIn("Messages", self.client.receive_message(QueueUrl="jobs"))

    def test_a_wait(self):
        self.client.create_queue(QueueName="jobs")
        self.client.send_message(QueueUrl="jobs", MessageBody="a", DelaySeconds=7)
        self.assertIn("Messages", self.client.receive_message(QueueUrl="jobs", WaitTimeSeconds=20))
        self.assertEqual(self.replay.now, 7_000)

    def test_refusals_are_its_exceptions(self):
        sqs, errors = self.client, self.client.exceptions
        sqs.create_queue(QueueName="jobs")
        sqs.send_message(QueueUrl="jobs", MessageBody="a")
        handle = sqs.receive_message(QueueUrl="jobs", VisibilityTimeout=0)["Messages"][0]["ReceiptHandle"]
        self.assertRaises(errors.QueueDoesNotExist, sqs.get_queue_url, QueueName="none")
        self.assertRaises(errors.QueueNameExists, sqs.create_queue, QueueName="jobs", Attributes={"DelaySeconds": "5"})
        self.assertRaises(errors.InvalidAttributeName, sqs.get_queue_attributes, QueueUrl="jobs", AttributeNames=["Nothing"])
        self.assertRaises(errors.InvalidAttributeValue, sqs.set_queue_attributes, QueueUrl="jobs", Attributes={"DelaySeconds": "901"})
        self.assertRaises(errors.InvalidMessageContents, sqs.send_message, QueueUrl="jobs", MessageBody="\x01")
        self.assertRaises(errors.ReceiptHandleIsInvalid, sqs.delete_message, QueueUrl="jobs", ReceiptHandle="no handle")
        self.assertRaises(errors.MessageNotInflight, sqs.change_message_visibility, QueueUrl="jobs", ReceiptHandle=handle, VisibilityTimeout=5)
        self.assertRaises(errors.EmptyBatchRequest, sqs.send_message_batch, QueueUrl="jobs", Entries=[])
        twice = [{"Id": "x", "MessageBody": "a"}, {"Id": "x", "MessageBody": "b"}]
        self.assertRaises(errors.BatchEntryIdsNotDistinct, sqs.send_message_batch, QueueUrl="jobs", Entries=twice)
        self.assertRaises(errors.UnsupportedOperation, sqs.tag_queue, QueueUrl="jobs", Tags={"a": "b"})

    def test_a_refusal_that_has_no_exception_of_its_own(self):
        self.client.create_queue(QueueName="jobs")
        with self.assertRaises(self.client.exceptions.ClientError) as caught:
            self.client.receive_message(QueueUrl="jobs", MaxNumberOfMessages=11)
        self.assertEqual(caught.exception.response["Error"], {"Code": "InvalidParameterValue", "Message": "Parameter value not allowed."})
        self.assertEqual(caught.exception.response["ResponseMetadata"]["HTTPStatusCode"], 400)

    def test_a_program_that_dies(self):
        self.replay._process.kill()
        with self.assertRaisesRegex(ProgramFailed, "was ended by signal 9"):
            self.client.list_queues()

    def test_a_resource(self):
        queue = self.replay.resource().create_queue(QueueName="jobs")
        queue.send_message(MessageBody="a")
        for message in queue.receive_messages(WaitTimeSeconds=20):
            message.delete()
        self.assertEqual(self.replay.counts("jobs"), (0, 0, 0))

    def test_options_of_boto3(self):
        from botocore.config import Config

        client = self.replay.client(region_name="eu-central-1", config=Config(parameter_validation=False, read_timeout=7))
        self.assertEqual(client.meta.region_name, "eu-central-1")
        self.assertEqual(client.meta.config.read_timeout, 7)
        self.assertRaises(client.exceptions.ClientError, client.send_message, QueueUrl="jobs", MessageBody=5)

    def test_clients_in_threads(self):
        self.client.create_queue(QueueName="jobs")

        def send(number):
            client = self.replay.client()
            for _ in range(5):
                client.send_message(QueueUrl="jobs", MessageBody=str(number))
                self.client.send_message(QueueUrl="jobs", MessageBody=str(number))

        with ThreadPoolExecutor(8) as pool:
            for sent in [pool.submit(send, number) for number in range(8)]:
                sent.result()
        self.assertEqual(self.replay.counts("jobs"), (80, 0, 0))


@needs_boto3
class FullJournal(ReplayCase):
    config = '[limits]\nmax_lines = 2\n\n[[queue]]\nname = "jobs"\n'

    def test_a_status_of_500_is_not_tried_again(self):
        client = self.replay.client()
        client.send_message(QueueUrl="jobs", MessageBody="a")
        begun = time.monotonic()
        with self.assertRaises(client.exceptions.ClientError) as caught:
            client.send_message(QueueUrl="jobs", MessageBody="b")
        self.assertEqual(caught.exception.response["Error"]["Code"], "JournalFull")
        self.assertEqual(caught.exception.response["ResponseMetadata"]["RetryAttempts"], 0)
        self.assertLess(time.monotonic() - begun, 10)


@needs_boto3
class Mixin(ReplayMixin, unittest.TestCase):
    sqs_config = '[[queue]]\nname = "jobs"\n'

    def test_it_has_a_client_and_a_clock(self):
        self.sqs.send_message(QueueUrl="jobs", MessageBody="a", DelaySeconds=5)
        self.replay.advance(seconds=5)
        self.assertEqual(self.replay.counts("jobs").visible, 1)

    def test_it_is_fresh(self):
        self.assertEqual((self.replay.now, self.replay.counts("jobs")), (0, (0, 0, 0)))


if __name__ == "__main__":
    unittest.main()
