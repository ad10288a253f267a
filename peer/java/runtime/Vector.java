import java.util.Arrays;

/** So many longs, at most 4,096. */
public final class Vector {
  private static final int MOST = 4096;

  private final long[] elements;

  /** Zeros. */
  public Vector(int size) {
    if (size > MOST) {
      throw new Limit();
    }
    elements = new long[size];
  }

  public int size() {
    return elements.length;
  }

  public long get(int index) {
    return elements[index];
  }

  public void set(int index, long value) {
    elements[index] = value;
  }

  /** The vector of an argument in a calls file: {@code [1,2]}. */
  public static Vector valueOf(String word) {
    if (!word.startsWith("[") || !word.endsWith("]")) {
      throw new NumberFormatException(word);
    }
    String inner = word.substring(1, word.length() - 1);
    String[] words = inner.isEmpty() ? new String[0] : inner.split(",", -1);
    Vector made = new Vector(words.length);
    for (int i = 0; i < words.length; i++) {
      made.set(i, Long.parseLong(words[i]));
    }
    return made;
  }

  /** As in a report: {@code [1,2]}. */
  @Override
  public String toString() {
    return Arrays.toString(elements).replace(" ", "");
  }
}
