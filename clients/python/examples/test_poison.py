from poison import consume, make_queues


def test_a_message_that_always_fails_is_dead_after_three_tries(sqs, sqs_clock):
    orders, dead = make_queues(sqs)
    for body in ("good", "poison", "also good"):
        sqs.send_message(QueueUrl=orders, MessageBody=body)
    tried = []

    def handle(body):
        tried.append(body)
        if body == "poison":
            raise ValueError(body)

    for _ in range(10):
        consume(sqs, orders, handle)
        sqs_clock.advance(seconds=30)

    assert tried == ["good", "poison", "also good", "poison", "poison"]
    assert sqs_clock.counts(orders) == (0, 0, 0)
    letters = sqs.receive_message(QueueUrl=dead, AttributeNames=["DeadLetterQueueSourceArn"])["Messages"]
    assert [letter["Body"] for letter in letters] == ["poison"]
    assert letters[0]["Attributes"]["DeadLetterQueueSourceArn"].endswith(":orders")


def test_a_message_that_fails_twice_is_handled_at_the_third_try(sqs, sqs_clock):
    orders, dead = make_queues(sqs)
    sqs.send_message(QueueUrl=orders, MessageBody="late bank")
    faults = [TimeoutError(), TimeoutError()]

    def handle(body):
        if faults:
            raise faults.pop()

    for _ in range(10):
        consume(sqs, orders, handle)
        sqs_clock.advance(seconds=30)

    assert sqs_clock.counts(orders) == (0, 0, 0)
    assert sqs_clock.counts(dead) == (0, 0, 0)
