class PageCounter {
  @Partitioned Table visits = new Table();
  long next(long page) { long seen = visits.get(page); return seen + 1; }
  void set(long page, long seen) { visits.put(page, seen); }
  long seen(long page) { return visits.get(page); }
}
