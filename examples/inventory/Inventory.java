class Inventory {
  // pieces there, by item
  @Partitioned Table stock = new Table();
  // pieces sold, by item and day of the week from 0 to 6
  @Partitioned Matrix sold = new Matrix();

  void deliver(long item, int boxes, int pieces) {
    for (int box = 0; box < boxes; box++) {
      stock.add(item, pieces);
    }
  }

  boolean sell(long item, int day, long wanted) {
    long there = stock.get(item);
    if (wanted <= 0 || wanted > there) {
      return false;
    }
    stock.put(item, there - wanted);
    sold.addElement(item, day, wanted);
    return true;
  }

  Vector shelf(long first, int items) {
    Vector pieces = new Vector(items);
    for (int i = 0; i < items; i++) {
      long there = stock.get(first + i);
      pieces.set(i, there);
    }
    return pieces;
  }

  long average(long item, int days) {
    Vector row = sold.getRow(item, days);
    return sum(row) / days;
  }

  int bestDay(long item) {
    Vector week = sold.getRow(item, 7);
    return best(week);
  }

  void clear(long first, long last) {
    long item = first;
    while (item <= last) {
      boolean isKept = stock.has(item);
      item++;
      if (!isKept) {
        continue;
      }
      stock.remove(item - 1);
    }
  }

  private long sum(Vector row) {
    long sum = 0;
    for (int i = 0; i < row.size(); i++) {
      sum += row.get(i);
    }
    return sum;
  }

  // the first of the days on which most was sold, or -1
  private int best(Vector week) {
    int best = -1;
    for (int day = 0; day < week.size(); day++) {
      if (week.get(day) > (best < 0 ? 0 : week.get(best))) {
        best = day;
      }
    }
    return best;
  }
}
