// Readers rate books, and a book is recommended that others like together with those that a reader likes. Books have
// the numbers from 0 to 4: Emma, Dracula, Kim, Walden, Candide. No rating reads as no star.
class BookClub {
  @Partitioned Matrix stars = new Matrix();
  @Partial Matrix together = new Matrix();

  void rate(long reader, int book, int given) {
    stars.setElement(reader, book, given);
    Vector rated = stars.getRow(reader, 5);
    for (int other = 0; other < rated.size(); other++)
      if (other != book && rated.get(other) > 0) {
        together.addElement(book, other, 1);
        together.addElement(other, book, 1);
      }
  }

  Vector recommend(long reader) {
    Vector rated = stars.getRow(reader, 5);
    @Partial Vector part = @Global together.multiply(rated);
    Vector scores = added(@Global part);
    for (int book = 0; book < scores.size(); book++)
      if (rated.get(book) > 0) scores.set(book, 0);
    return scores;
  }

  Vector added(@Collection Vector[] parts) {
    Vector sums = new Vector(parts[0].size());
    for (int part = 0; part < parts.length; part++)
      for (int book = 0; book < sums.size(); book++)
        sums.set(book, sums.get(book) + parts[part].get(book));
    return sums;
  }
}
