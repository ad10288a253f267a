import java.util.HashMap;
import java.util.Map;

/** A map from a row and a column to long values. A place without an entry reads as 0. Columns are 0 to 4,095. */
public final class Matrix {
  private static final int COLUMNS = 4096;

  private final Map<Long, Map<Long, Long>> rows = new HashMap<>();

  public long getElement(long row, long column) {
    return rowOf(row).getOrDefault(checked(column), 0L);
  }

  public void setElement(long row, long column, long value) {
    checked(column);
    rows.computeIfAbsent(row, absent -> new HashMap<>()).put(column, value);
  }

  /** Makes an entry where there is none. The sum wraps. */
  public void addElement(long row, long column, long value) {
    setElement(row, column, getElement(row, column) + value);
  }

  /** The first columns of a row. */
  public Vector getRow(long row, int size) {
    Vector made = new Vector(size);
    for (int column = 0; column < size; column++) {
      made.set(column, getElement(row, column));
    }
    return made;
  }

  /** The product with a vector, of as many rows and columns as it has elements. */
  public Vector multiply(Vector vector) {
    Vector product = new Vector(vector.size());
    for (int row = 0; row < vector.size(); row++) {
      long sum = 0;
      for (int column = 0; column < vector.size(); column++) {
        sum += getElement(row, column) * vector.get(column);
      }
      product.set(row, sum);
    }
    return product;
  }

  /** The number of entries. */
  public long size() {
    long size = 0;
    for (Map<Long, Long> row : rows.values()) {
      size += row.size();
    }
    return size;
  }

  private Map<Long, Long> rowOf(long row) {
    return rows.getOrDefault(row, Map.of());
  }

  private static long checked(long column) {
    if (column < 0 || column >= COLUMNS) {
      throw new ArrayIndexOutOfBoundsException();
    }
    return column;
  }
}
