from reminder import due_reminders, remind


def test_a_reminder_in_ten_minutes(sqs, sqs_clock):
    url = sqs.create_queue(QueueName="reminders")["QueueUrl"]
    remind(sqs, url, "tea is ready", due=600, now=lambda: sqs_clock.now / 1000)

    sqs_clock.advance(minutes=10, milliseconds=-1)
    assert due_reminders(sqs, url, now=lambda: sqs_clock.now / 1000) == []
    sqs_clock.advance(milliseconds=1)
    assert due_reminders(sqs, url, now=lambda: sqs_clock.now / 1000) == ["tea is ready"]
    assert due_reminders(sqs, url, now=lambda: sqs_clock.now / 1000) == []


def test_a_reminder_in_two_hours_is_sent_on_until_it_is_due(sqs, sqs_clock):
    url = sqs.create_queue(QueueName="reminders")["QueueUrl"]
    remind(sqs, url, "leave now", due=7200, now=lambda: sqs_clock.now / 1000)

    while sqs_clock.now < 7_200_000:
        assert due_reminders(sqs, url, now=lambda: sqs_clock.now / 1000) == []
        sqs_clock.advance(minutes=15)
    assert due_reminders(sqs, url, now=lambda: sqs_clock.now / 1000) == ["leave now"]
