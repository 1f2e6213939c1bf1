from pathlib import Path

from backlog import to_call, work
from jutkariq import Replay

CONFIG = Path(__file__).with_name("backlog.toml")


def minute(replay, sqs, new, most):
    """Lets a minute pass in which so many jobs come, and so many at most are done."""
    for number in range(new):
        sqs.send_message(QueueUrl="jobs", MessageBody=str(number))
    work(sqs, "jobs", lambda job: None, most)
    replay.advance(minutes=1)


def test_the_alarm_goes_off_when_the_third_deep_minute_is_over():
    with Replay(config=CONFIG) as replay:
        sqs = replay.client()
        for _ in range(3):
            minute(replay, sqs, new=1, most=1)
        assert replay.alarms("jobs") == {"backlog": "OK"}

        for _ in range(2):
            minute(replay, sqs, new=4, most=1)
            assert to_call(replay.alarms("jobs")) == []
        minute(replay, sqs, new=4, most=1)
        assert to_call(replay.alarms("jobs")) == ["backlog"]
        assert [row["visible"] for row in replay.rows("jobs")] == [0, 0, 0, 3, 6, 9]


def test_it_goes_off_at_the_end_of_that_minute_and_not_before():
    with Replay(config=CONFIG) as replay:
        sqs = replay.client()
        replay.advance(minutes=5)
        for number in range(3):
            sqs.send_message(QueueUrl="jobs", MessageBody=str(number))
        replay.advance(minutes=3, milliseconds=-1)
        assert replay.alarms("jobs") == {"backlog": "OK"}
        replay.advance(milliseconds=1)
        assert replay.alarms("jobs") == {"backlog": "ALARM"}


def test_it_ends_with_the_first_minute_that_is_not_deep():
    with Replay(config=CONFIG) as replay:
        sqs = replay.client()
        minute(replay, sqs, new=3, most=0)
        replay.advance(minutes=2)
        assert replay.alarms("jobs") == {"backlog": "ALARM"}
        minute(replay, sqs, new=0, most=1)
        assert replay.alarms("jobs") == {"backlog": "OK"}
