from heartbeat import work_once


def queue_with_a_job(sqs):
    url = sqs.create_queue(QueueName="jobs")["QueueUrl"]
    sqs.send_message(QueueUrl=url, MessageBody="film")
    return url


def test_a_job_of_ten_minutes_stays_with_its_worker(sqs, sqs_clock):
    url = queue_with_a_job(sqs)

    def ten_minutes(job, still_here):
        for _ in range(12):
            sqs_clock.advance(seconds=50)
            assert sqs_clock.counts(url) == (0, 0, 1)
            still_here()

    work_once(sqs, url, ten_minutes)
    assert sqs_clock.counts(url) == (0, 0, 0)


def test_a_worker_that_dies_gives_its_job_back_a_minute_after_its_last_sign(sqs, sqs_clock):
    url = queue_with_a_job(sqs)

    def die(job, still_here):
        sqs_clock.advance(seconds=45)
        still_here()
        raise SystemExit

    try:
        work_once(sqs, url, die)
    except SystemExit:
        pass
    sqs_clock.advance(seconds=59.999)
    assert sqs_clock.counts(url) == (0, 0, 1)
    sqs_clock.advance(milliseconds=1)
    assert sqs_clock.counts(url) == (1, 0, 0)


def test_a_worker_without_a_job_waits_for_one(sqs, sqs_clock):
    url = sqs.create_queue(QueueName="jobs")["QueueUrl"]
    sqs.send_message(QueueUrl=url, MessageBody="film", DelaySeconds=15)
    done = []
    work_once(sqs, url, lambda job, still_here: done.append((job, sqs_clock.now)))
    assert done == [("film", 15_000)]
