import java.util.HashMap;
import java.util.Map;

/** A map from long keys to long values. A key without an entry reads as 0. */
public final class Table {
  private final Map<Long, Long> entries = new HashMap<>();

  public long get(long key) {
    return entries.getOrDefault(key, 0L);
  }

  /** Also true for an entry that holds 0. */
  public boolean has(long key) {
    return entries.containsKey(key);
  }

  public void put(long key, long value) {
    entries.put(key, value);
  }

  /** Makes an entry where there is none. The sum wraps. */
  public void add(long key, long value) {
    put(key, get(key) + value);
  }

  public void remove(long key) {
    entries.remove(key);
  }

  /** The number of entries. */
  public long size() {
    return entries.size();
  }
}
