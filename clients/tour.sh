#!/bin/sh
# A tour of the server with the AWS command line, as any client of Amazon SQS makes it.
# Usage: tour.sh [endpoint], by default http://localhost:9324. The server is started before, as by
# `make run`. The first step that is not as wanted ends the tour with status 1.
set -eu

endpoint=${1:-http://localhost:9324}
AWS_ACCESS_KEY_ID=x
AWS_SECRET_ACCESS_KEY=x
AWS_DEFAULT_REGION=elasticmq
AWS_MAX_ATTEMPTS=1
AWS_PAGER=
export AWS_ACCESS_KEY_ID AWS_SECRET_ACCESS_KEY AWS_DEFAULT_REGION AWS_MAX_ATTEMPTS AWS_PAGER

sqs() {
    aws --endpoint-url "$endpoint" --output text sqs "$@"
}

check() {
    if [ "$2" != "$3" ]; then
        echo "$1: found '$2', wanted '$3'" >&2
        exit 1
    fi
    echo "$1: $2"
}

# How many messages are visible, delayed and in flight.
counts() {
    sqs get-queue-attributes --queue-url "$1" --attribute-names ApproximateNumberOfMessages \
        ApproximateNumberOfMessagesDelayed ApproximateNumberOfMessagesNotVisible --query \
        'Attributes.[ApproximateNumberOfMessages,ApproximateNumberOfMessagesDelayed,ApproximateNumberOfMessagesNotVisible]' |
        tr '\t' ' '
}

dead=$(sqs create-queue --queue-name shell-dead --query QueueUrl)
url=$(sqs create-queue --queue-name shell-jobs --query QueueUrl --attributes \
    '{"RedrivePolicy":"{\"deadLetterTargetArn\":\"arn:aws:sqs:elasticmq:000000000000:shell-dead\",\"maxReceiveCount\":1}"}')
check "url" "$url" "http://localhost:${endpoint##*:}/000000000000/shell-jobs"

digest=$(sqs send-message --queue-url "$url" --message-body hello --query MD5OfMessageBody)
check "digest" "$digest" "5d41402abc4b2a76b9719d911017c592"
received=$(sqs receive-message --queue-url "$url" --query 'Messages[0].[Body,ReceiptHandle]')
set -- $received
check "body" "$1" "hello"
sqs change-message-visibility --queue-url "$url" --receipt-handle "$2" --visibility-timeout 60
check "in flight" "$(counts "$url")" "0 0 1"
sqs delete-message --queue-url "$url" --receipt-handle "$2"
check "deleted" "$(counts "$url")" "0 0 0"

sent=$(sqs send-message-batch --queue-url "$url" --query 'Successful[].Id' --entries \
    Id=now,MessageBody=a Id=later,MessageBody=b,DelaySeconds=900)
check "batch" "$(echo "$sent" | tr '\t' ' ')" "now later"
check "counts" "$(counts "$url")" "1 1 0"

handle=$(sqs receive-message --queue-url "$url" --query 'Messages[0].ReceiptHandle')
sqs change-message-visibility --queue-url "$url" --receipt-handle "$handle" --visibility-timeout 0
check "left" "$(sqs receive-message --queue-url "$url" --query 'Messages')" "None"
found=$(sqs receive-message --queue-url "$dead" --wait-time-seconds 5 --query 'Messages[0].Body')
check "dead letter" "$found" "a"

begun=$(date +%s)
check "waited for nothing" "$(sqs receive-message --queue-url "$url" --wait-time-seconds 2 --query 'Messages')" "None"
[ $(($(date +%s) - begun)) -ge 2 ] || { echo "the receive did not wait" >&2; exit 1; }

sqs delete-queue --queue-url "$url"
sqs delete-queue --queue-url "$dead"
if told=$(sqs get-queue-url --queue-name shell-jobs 2>&1); then
    echo "gone: the queue is still there" >&2
    exit 1
fi
check "gone" "$(echo "$told" | grep -o 'The specified queue does not exist.')" "The specified queue does not exist."
echo "the tour is done"
