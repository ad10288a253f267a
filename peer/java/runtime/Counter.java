/** One long. Sums wrap. */
public final class Counter {
  private long value;

  public long get() {
    return value;
  }

  public void add(long amount) {
    value += amount;
  }

  public void set(long amount) {
    value = amount;
  }
}
