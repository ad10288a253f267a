class PageVisits {
  @Partitioned Table visits = new Table();
  @Partitioned Table last = new Table();
  void visit(long page, long who) { long seen = visits.get(page); visits.put(page, seen + 1); last.put(page, who); }
  long seen(long page) { return visits.get(page); }
}
