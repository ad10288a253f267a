class PriceList {
  @Partitioned Table prices = new Table();

  void setPrice(long shop, long item, long cents) {
    prices.put(shop + item, cents);
  }

  long price(long shop, long item) {
    return prices.get(shop + item);
  }

  long priceSent(long shop, long item, long distance) {
    long cents = prices.get(shop + item);
    return cents + 250 + distance + distance;
  }

  void openShop(long shop) {
    prices.put(shop, 1);
  }

  long isOpen(long shop) {
    return prices.get(shop);
  }
}
