class WrapAround {
  @Partitioned Table t = new Table();
  void putLiterals() { t.put(1, 2147483647 + 1); }
  void putSum(long a, long b) { t.put(2, a + b); }
  long literals() { return t.get(1); }
  long sum() { return t.get(2); }
  long intFirst(long k) { long x = t.get(k); return 2147483647 + 1 + x; }
  long longFirst(long k) { long x = t.get(k); return x + 2147483647 + 1; }
  void putAbove(long k, long v) { t.put(k + 1, v); }
  long at(long k) { return t.get(k); }
  long literalKey() { return t.get(2147483647 + 2147483647 + 3); }
}
