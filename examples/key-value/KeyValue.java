class KeyValue {
  @Partitioned Table entries = new Table();
  void put(long key, long value) { entries.put(key, value); }
  long get(long key) { return entries.get(key); }
}
