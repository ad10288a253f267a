// Visitors come in through turnstiles, each with a counter of its own. The total asks all of them.
class Turnstiles {
  @Partial Counter entered = new Counter();

  void enter(long people) { entered.add(people); }

  long total() {
    @Partial long each = @Global entered.get();
    return sum(@Global each);
  }

  long busiest() {
    @Partial long each = @Global entered.get();
    long most = greatest(@Global each);
    return most;
  }

  void closing() { @Global entered.set(0); }

  long sum(@Collection long[] counts) {
    long all = 0;
    for (int i = 0; i < counts.length; i++) all += counts[i];
    return all;
  }

  long greatest(@Collection long[] counts) {
    long most = counts[0];
    for (int i = 1; i < counts.length; i++)
      if (counts[i] > most) most = counts[i];
    return most;
  }
}
