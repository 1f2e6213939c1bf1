import java.io.*;

public class Delay {
    public static void main(String[] words) throws IOException {
        Process replay = new ProcessBuilder("sqs_replay").redirectError(ProcessBuilder.Redirect.INHERIT).start();
        String run = """
            0 CreateQueue {"QueueName":"jobs"}
            0 SendMessage {"QueueUrl":"jobs","MessageBody":"hello","DelaySeconds":900}
            899999 ReceiveMessage {"QueueUrl":"jobs"}
            900000 ReceiveMessage {"QueueUrl":"jobs"}
            """;
        try (Writer lines = replay.outputWriter(); BufferedReader answers = replay.inputReader()) {
            for (String line : run.lines().toList()) {
                lines.append(line + "\n").flush();
                System.out.println(answers.readLine().contains("hello"));
            }
        }
    }
}
