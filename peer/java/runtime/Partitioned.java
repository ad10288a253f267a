import java.lang.annotation.ElementType;
import java.lang.annotation.Target;

/** A field whose entries are in disjoint parts, chosen by a key. */
@Target(ElementType.FIELD)
public @interface Partitioned {}
