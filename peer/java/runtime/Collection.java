import java.lang.annotation.ElementType;
import java.lang.annotation.Target;

/** A parameter with the values of all instances. */
@Target(ElementType.PARAMETER)
public @interface Collection {}
