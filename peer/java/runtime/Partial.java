import java.lang.annotation.ElementType;
import java.lang.annotation.Target;

/** A field with independent instances, or a local with one value of each instance. */
@Target({ElementType.FIELD, ElementType.LOCAL_VARIABLE})
public @interface Partial {}
