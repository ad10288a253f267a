// The book club with partitioned fields alone: `together` is split by its rows, a row for each book, so each pair of
// books is two blocks, and a recommendation reads the row of each book that the reader has rated.
class BookClub {
  @Partitioned Matrix stars = new Matrix();
  @Partitioned Matrix together = new Matrix();

  void rate(long reader, int book, int given) {
    stars.setElement(reader, book, given);
    Vector rated = stars.getRow(reader, 5);
    for (int other = 0; other < rated.size(); other++)
      if (other != book && rated.get(other) > 0) {
        together.addElement(book, other, 1);
        together.addElement(other, book, 1);
      }
  }

  Vector recommend(long reader) {
    Vector rated = stars.getRow(reader, 5);
    Vector scores = new Vector(rated.size());
    for (int book = 0; book < rated.size(); book++)
      if (rated.get(book) > 0) {
        Vector pairs = together.getRow(book, 5);
        for (int other = 0; other < pairs.size(); other++)
          if (rated.get(other) == 0) scores.set(other, scores.get(other) + pairs.get(other) * rated.get(book));
      }
    return scores;
  }
}
