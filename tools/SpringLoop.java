// Spring's jobs beside those of cronbench and of tools/robfig_loop.go: `0 M * * * *` in UTC, of which 4 in 100 run at a time.
//
//	apt-get install libspring-context-java libspring-core-java default-jdk-headless
//	java -cp /usr/share/java/spring3-context.jar:/usr/share/java/spring3-core.jar tools/SpringLoop.java [ROUNDS [JOBS]]
//
// Java compiles it as it starts it. Standard output has the sum of the wake-ups' answers, for 100,000 jobs that of
// crates/cronbench/stdout. Standard error has the bytes of a job after System.gc(), by itself and with its place in the queue, and the
// nanoseconds of processor time of one search and of one wake-up, in the fastest round. With JOBS there are so many in place of 100,000.
//
// The jobs are read and searched by Spring's CronSequenceGenerator. Spring waits for them in a queue of its own thread pool. Here a plain
// loop over a java.util.PriorityQueue stands for it, without threads and tasks, which would only add to it; and its garbage is
// collected by other threads, which aren't measured.
import java.lang.management.ManagementFactory;
import java.util.Date;
import java.util.PriorityQueue;
import java.util.TimeZone;
import org.springframework.scheduling.support.CronSequenceGenerator;

public class SpringLoop {
  // As in crates/cronbench: the wake-ups, and the second at which all jobs are added.
  static final int WAKE_UPS = 25;
  static final Date START = new Date(1_717_372_799_000L);
  static final TimeZone UTC = TimeZone.getTimeZone("UTC");

  static final class Entry implements Comparable<Entry> {
    final int id;
    final CronSequenceGenerator job;
    Date next;

    Entry(int id, CronSequenceGenerator job) {
      this.id = id;
      this.job = job;
      next = job.next(START);
    }

    public int compareTo(Entry other) {
      return next.compareTo(other.next);
    }
  }

  static CronSequenceGenerator[] jobs(int count) {
    CronSequenceGenerator[] jobs = new CronSequenceGenerator[count];
    for (int job = 0; job < count; job++) {
      jobs[job] = new CronSequenceGenerator("0 " + job % WAKE_UPS * 2 + " * * * *", UTC);
    }
    return jobs;
  }

  static PriorityQueue<Entry> queue(CronSequenceGenerator[] jobs) {
    PriorityQueue<Entry> queue = new PriorityQueue<>();
    for (int job = 0; job < jobs.length; job++) {
      queue.add(new Entry(job, jobs[job]));
    }
    return queue;
  }

  // Searches all that is due again, and gives the sum of the ids, each times its second.
  static long wake(PriorityQueue<Entry> queue) {
    Date now = queue.peek().next;
    long sum = 0;
    while (!queue.peek().next.after(now)) {
      Entry entry = queue.poll();
      sum += entry.next.getTime() / 1000 * entry.id;
      entry.next = entry.job.next(now);
      queue.add(entry);
    }
    return sum;
  }

  static long wakeUps(PriorityQueue<Entry> queue) {
    long sum = 0;
    for (int i = 0; i < WAKE_UPS; i++) {
      sum = sum * 1_000_003 + wake(queue);
    }
    return sum;
  }

  static long searches(CronSequenceGenerator[] jobs) {
    long last = 0;
    for (CronSequenceGenerator job : jobs) {
      last = Math.max(last, job.next(START).getTime());
    }
    return last;
  }

  // The processor time of this thread, in nanoseconds.
  static long clock() {
    return ManagementFactory.getThreadMXBean().getCurrentThreadCpuTime();
  }

  static long heap() throws InterruptedException {
    for (int i = 0; i < 3; i++) {
      System.gc();
      Thread.sleep(100);
    }
    return Runtime.getRuntime().totalMemory() - Runtime.getRuntime().freeMemory();
  }

  public static void main(String[] words) throws InterruptedException {
    int rounds = words.length > 0 ? Integer.parseInt(words[0]) : 1;
    int count = words.length > 1 ? Integer.parseInt(words[1]) : 100_000;
    long before = heap();
    CronSequenceGenerator[] jobs = jobs(count);
    long alone = heap() - before;
    PriorityQueue<Entry> kept = queue(jobs);
    long all = heap() - before;
    long search = Long.MAX_VALUE, wakeUp = Long.MAX_VALUE, sum = 0;
    for (int round = 0; round < rounds; round++) {
      long begin = clock();
      searches(jobs);
      search = Math.min(search, clock() - begin);
      PriorityQueue<Entry> queue = queue(jobs);
      begin = clock();
      sum = wakeUps(queue);
      wakeUp = Math.min(wakeUp, clock() - begin);
    }
    System.out.printf("wake-up of %,d jobs, 4 in 100 run, UTC: %d answers, sum %s%n", kept.size(), WAKE_UPS, Long.toUnsignedString(sum));
    System.err.printf("%,d jobs: %d bytes a job, %d with its place in the queue%n", kept.size(), alone / count, all / count);
    System.err.printf("a search: %d ns%n", search / count);
    System.err.printf("wake-up of %,d jobs, 4 in 100 run, UTC: %d ns%n", kept.size(), wakeUp / WAKE_UPS);
  }
}
