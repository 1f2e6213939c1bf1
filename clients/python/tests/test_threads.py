"""Several threads at one replay, and many replays at once."""

import threading
import unittest
from concurrent.futures import ThreadPoolExecutor

from support import ReplayCase

from jutkariq import Replay

SENDS = 25


class Threads(ReplayCase):
    def test_each_message_is_taken_once(self):
        self.queue()
        taken, done = [], threading.Event()

        def send(number):
            for count in range(SENDS):
                self.send(f"{number}.{count}")
                self.replay.advance(milliseconds=1)

        def consume(_):
            while True:
                last = done.is_set()
                messages = self.receive(MaxNumberOfMessages=10, VisibilityTimeout=43_200)
                for message in messages:
                    taken.append(message["Body"])
                    self.done("DeleteMessage", QueueUrl="jobs", ReceiptHandle=message["ReceiptHandle"])
                if last and not messages:
                    return

        with ThreadPoolExecutor(8) as pool:
            consumers = [pool.submit(consume, number) for number in range(4)]
            for sender in [pool.submit(send, number) for number in range(4)]:
                sender.result()
            done.set()
            for consumer in consumers:
                consumer.result()
        self.assertEqual(sorted(taken), sorted(f"{number}.{count}" for number in range(4) for count in range(SENDS)))
        self.assertEqual(self.replay.now, 4 * SENDS)
        self.assertEqual(self.replay.counts("jobs"), (0, 0, 0))

    def test_waits_of_threads_follow_one_another(self):
        self.queue()
        with ThreadPoolExecutor(4) as pool:
            found = [*pool.map(lambda _: self.bodies(WaitTimeSeconds=20), range(4))]
        self.assertEqual(found, [[], [], [], []])
        self.assertEqual(self.replay.now, 80_000)


class ManyReplays(unittest.TestCase):
    def test_fifty_at_once(self):
        replays = []
        try:
            for _ in range(50):
                replays.append(Replay())

            def talk(number):
                replay = replays[number]
                replay.ask("CreateQueue", {"QueueName": "jobs"})
                replay.advance(minutes=number)
                for _ in range(number % 7):
                    replay.ask("SendMessage", {"QueueUrl": "jobs", "MessageBody": "a"})
                return replay.now, replay.counts("jobs").visible

            with ThreadPoolExecutor(10) as pool:
                found = [*pool.map(talk, range(50))]
        finally:
            for replay in replays:
                replay.close()
        self.assertEqual(found, [(60_000 * number, number % 7) for number in range(50)])


if __name__ == "__main__":
    unittest.main()
