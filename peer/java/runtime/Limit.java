/** No turn is left, or a vector has more elements than there may be: the call ends with the result {@code limit}. */
public final class Limit extends RuntimeException {}
