"""Ten payments of four seconds each take longer than the visibility timeout of 30 seconds. Another consumer then receives the last of them."""

from collections import Counter

from payments import take_payments, take_payments_once

PAYMENTS = [f"payment {number}" for number in range(1, 11)]


def charges_of(sqs, clock, take):
    """Has one consumer take all payments, and another one look into the queue after 32 seconds. Returns how often each was charged."""
    url = sqs.create_queue(QueueName="payments", Attributes={"VisibilityTimeout": "30"})["QueueUrl"]
    for payment in PAYMENTS:
        sqs.send_message(QueueUrl=url, MessageBody=payment)
    charged = Counter()

    def charge(payment):
        charged[payment] += 1

    def charge_slowly(payment):
        clock.advance(seconds=4)
        charge(payment)
        if clock.now == 32_000:
            take(sqs, url, charge)

    take(sqs, url, charge_slowly)
    assert clock.counts(url) == (0, 0, 0)
    return charged


def test_a_consumer_that_is_not_idempotent_charges_the_last_three_twice(sqs, sqs_clock):
    charged = charges_of(sqs, sqs_clock, take_payments)
    assert {payment for payment, times in charged.items() if times == 2} == {"payment 8", "payment 9", "payment 10"}


def test_an_idempotent_consumer_charges_each_once(sqs, sqs_clock):
    taken = set()
    charged = charges_of(sqs, sqs_clock, lambda sqs, url, charge: take_payments_once(sqs, url, charge, taken))
    assert charged == Counter(PAYMENTS)
