/** Counts the turns of a call that a JVM can know: one at each entry into the body of a loop or of a called method. */
public class Turns {
  private static final int MOST = 100_000;

  private int spent;

  /** Begins a call: its own method's entry spends no turn. */
  public final void begin() {
    spent = -1;
  }

  /** Spends a turn, and whether there was none left. */
  public final boolean none() {
    spent++;
    return spent > MOST;
  }

  /** Whether all turns are spent. */
  public final boolean isOver() {
    return spent > MOST;
  }

  /**
   * Whether the turns before blocks cannot spend the rest. Each entry into a body passes each access of the text at most
   * once, and the turn before each.
   */
  public final boolean isEnough(int accesses) {
    return (spent + 1L) * (accesses + 1) - 1 <= MOST;
  }
}
