// Asks Quartz (CronExpression) or Spring (CronSequenceGenerator). Questions and answers are those of ask_cron.c.
//
//     java -cp JARS Ask.java quartz|spring
//
// Both have a field of seconds in front of the five: a 0 is put there. Quartz takes no line in which neither day field is a '?': where
// one is a '*', a '?' is put in its place. Spring gives up with an exception where the next day is more than a year away: that is `never`.
import java.io.BufferedReader;
import java.io.InputStreamReader;
import java.text.ParseException;
import java.util.Date;
import java.util.TimeZone;
import org.quartz.CronExpression;
import org.springframework.scheduling.support.CronSequenceGenerator;

public class Ask {
  static final TimeZone ZONE = TimeZone.getTimeZone(System.getenv("TZ") == null ? "UTC" : System.getenv("TZ"));

  static String forQuartz(String line) {
    String[] fields = line.trim().split("[ \t]+");
    if (fields.length == 5 && fields[4].equals("*")) {
      fields[4] = "?";
    } else if (fields.length == 5 && fields[2].equals("*")) {
      fields[2] = "?";
    }
    return "0 " + String.join(" ", fields);
  }

  static Date ask(String program, String line, Date after) throws ParseException {
    if (program.equals("spring")) {
      return new CronSequenceGenerator("0 " + line, ZONE).next(after);
    }
    CronExpression job = new CronExpression(forQuartz(line));
    job.setTimeZone(ZONE);
    return job.getNextValidTimeAfter(after);
  }

  static String answer(String program, String line, Date after) {
    try {
      Date start = ask(program, line, after);
      return start == null ? "never" : String.valueOf(start.getTime() / 1000);
    } catch (IllegalArgumentException refusal) {
      return String.valueOf(refusal.getMessage()).matches(".*(runaway|Overflow).*") ? "never" : "refused";
    } catch (ParseException | RuntimeException refusal) {
      return "refused";
    }
  }

  public static void main(String[] words) throws Exception {
    BufferedReader questions = new BufferedReader(new InputStreamReader(System.in));
    for (String question; (question = questions.readLine()) != null; ) {
      String[] parts = question.split("\t", 2);
      System.out.println(answer(words[0], parts[1], new Date(1000 * Long.parseLong(parts[0]))));
    }
  }
}
