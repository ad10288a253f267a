import java.lang.annotation.Target;

/** The mark in front of an access to all instances. Java has no annotations there, so it can stand nowhere. */
@Target({})
public @interface Global {}
