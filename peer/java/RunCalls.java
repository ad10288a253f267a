import java.io.ByteArrayOutputStream;
import java.io.IOException;
import java.io.OutputStream;
import java.lang.reflect.AccessibleObject;
import java.lang.reflect.Constructor;
import java.lang.reflect.InvocationTargetException;
import java.lang.reflect.Method;
import java.net.URI;
import java.nio.charset.StandardCharsets;
import java.nio.file.Files;
import java.nio.file.Path;
import java.util.ArrayList;
import java.util.HashMap;
import java.util.List;
import java.util.Map;
import java.util.TreeMap;
import java.util.regex.MatchResult;
import java.util.regex.Matcher;
import java.util.regex.Pattern;
import javax.lang.model.SourceVersion;
import javax.tools.Diagnostic;
import javax.tools.DiagnosticCollector;
import javax.tools.FileObject;
import javax.tools.ForwardingJavaFileManager;
import javax.tools.JavaCompiler;
import javax.tools.JavaFileManager;
import javax.tools.JavaFileObject;
import javax.tools.SimpleJavaFileObject;
import javax.tools.StandardJavaFileManager;
import javax.tools.ToolProvider;

/**
 * Compiles classes with javac, and runs the calls of each on one object of it, one after the other.
 *
 * <p>usage: java RunCalls.java RUNTIME CLASS CALLS [CLASS CALLS]..
 *
 * <p>RUNTIME is the folder with the sources of the annotations, of the state classes and of the count of turns. Each CLASS
 * has a line {@code class CLASS}, and then the lines of {@code java2sdg plain CLASS CALLS}: {@code result C VALUE} for each
 * call C, from 1, and {@code end R results}. Where Java refuses the class or a call, a line {@code refused: WHY} ends it,
 * and the status is 1. Where javac refuses a class, WHY is {@code javac: } and each error, with {@code ; } between them: its
 * line and column, its code and its message. The place is that of the first token, and of a missing return that of the
 * closing brace.
 *
 * <p>A JVM does not know the turns that are spent before blocks, so it cannot tell where a call with accesses to fields
 * runs out of turns. A line {@code unknown from call C} ends what is said of a class where that may come, or came before.
 */
final class RunCalls {
  public static void main(String[] words) throws Exception {
    if (words.length < 3 || words.length % 2 == 0) {
      System.err.println("usage: java RunCalls.java RUNTIME CLASS CALLS [CLASS CALLS]..");
      System.exit(2);
    }
    StringBuilder results = new StringBuilder();
    int status = 0;
    try (Compiler compiler = new Compiler(Path.of(words[0]))) {
      for (int i = 1; i < words.length; i += 2) {
        results.append("class ").append(words[i]).append('\n');
        try {
          run(text(Path.of(words[i])), callLines(Path.of(words[i + 1])), compiler, results);
        } catch (Refused refused) {
          results.append("refused: ").append(refused.getMessage()).append('\n');
          status = 1;
        }
      }
    }
    System.out.print(results);
    System.out.flush();
    System.exit(status);
  }

  private static void run(String text, List<String> calls, Compiler compiler, StringBuilder results) throws Exception {
    Class<?> compiled = compiler.compiled(text);
    Map<String, Method> methods = new HashMap<>();
    for (Method method : compiled.getDeclaredMethods()) {
      methods.put(method.getName(), method);
    }
    Constructor<?> constructor = compiled.getDeclaredConstructor();
    for (AccessibleObject each : methods.values()) {
      each.setAccessible(true);
    }
    constructor.setAccessible(true);
    Object object = constructor.newInstance();
    // no more than these: vectors have methods too
    int accesses = compiled.getDeclaredFields().length == 0 ? 0 : (int) text.chars().filter(each -> each == '.').count();
    boolean isKnown = true;
    int number = 0;
    for (String call : calls) {
      number++;
      compiled.getMethod("begin").invoke(object);
      String outcome = outcome(object, methods, call);
      boolean isOver = (boolean) compiled.getMethod("isOver").invoke(object);
      isKnown = isKnown && (isOver || (boolean) compiled.getMethod("isEnough", int.class).invoke(object, accesses));
      if (!isKnown) {
        results.append("unknown from call ").append(number).append('\n');
        return;
      }
      results.append("result ").append(number).append(' ').append(outcome).append('\n');
      isKnown = !isOver || accesses == 0;
    }
    results.append("end ").append(number).append(" results\n");
  }

  /** The lines of a calls file that are calls: LF or CRLF ends a line, and empty lines and comments are skipped. */
  private static List<String> callLines(Path file) throws IOException {
    List<String> calls = new ArrayList<>();
    for (String line : text(file).split("\n")) {
      String call = line.endsWith("\r") ? line.substring(0, line.length() - 1) : line;
      if (!call.isEmpty() && !call.startsWith("#")) {
        calls.add(call);
      }
    }
    return calls;
  }

  private static String outcome(Object object, Map<String, Method> methods, String call) throws Exception {
    String[] words = call.split(" ", -1);
    Method method = words[0].isEmpty() ? null : methods.get(JavaText.own(words[0]));
    if (method == null || method.getParameterCount() != words.length - 1) {
      throw new Refused("no method takes the call " + call);
    }
    Object[] arguments = new Object[words.length - 1];
    for (int i = 0; i < arguments.length; i++) {
      arguments[i] = argument(method.getParameterTypes()[i], words[i + 1]);
    }
    try {
      Object value = method.invoke(object, arguments);
      return method.getReturnType() == void.class ? "void" : String.valueOf(value);
    } catch (InvocationTargetException thrown) {
      String name = thrown.getCause().getClass().getSimpleName();
      return name.equals("Limit") ? "limit" : "throws " + name;
    }
  }

  private static Object argument(Class<?> type, String word) throws Exception {
    try {
      if (type == long.class) {
        return Long.valueOf(word);
      }
      if (type == int.class) {
        return Integer.valueOf(word);
      }
      if (type == boolean.class && (word.equals("true") || word.equals("false"))) {
        return Boolean.valueOf(word);
      }
      if (type.getName().equals("Vector")) {
        return type.getMethod("valueOf", String.class).invoke(null, word);
      }
    } catch (NumberFormatException | InvocationTargetException wrong) {
      throw new Refused(word + " is no " + type);
    }
    throw new Refused(word + " is no " + type);
  }

  /** One char a byte: bytes past ASCII stand in comments alone. */
  private static String text(Path file) throws IOException {
    return Files.readString(file, StandardCharsets.ISO_8859_1);
  }

  /** A class or a call that Java has no meaning for. */
  private static final class Refused extends Exception {
    Refused(String message) {
      super(message);
    }
  }

  /** The text of a class as javac takes it, with a count of turns. */
  private static final class JavaText {
    /** From a letter of ASCII to its fullwidth form. */
    private static final int FULLWIDTH = 0xFEE0;

    private static final Pattern OWN = Pattern.compile("[\uFF00-\uFFEF]");
    private static final Pattern COMMENT = Pattern.compile("//[^\\r\\n]*|/\\*.*?\\*/", Pattern.DOTALL);
    private static final Pattern HEAD = Pattern.compile("^.*?(?<![\\w$])(?=class(?![\\w$]))", Pattern.DOTALL);
    private static final Pattern MARK = Pattern.compile("(?<![\\w$])(?:public|private|static)(?![\\w$])|@\\s*Global(?![\\w$])");
    private static final Pattern NAME = Pattern.compile("(class\\s+|new\\s+|[.@]\\s*)?([\\w$]+)(?=(\\s*\\()?)");
    private static final Pattern CLASS = Pattern.compile("class\\s+[^\\s{]+");
    private static final Pattern METHOD = Pattern.compile("[\uFF00-\uFFEF][\\w$]*\\s*\\([^()]*\\)\\s*\\{");
    private static final Pattern LOOP = Pattern.compile("(?<![\\w$])(?:while|for)\\s*\\(");

    final String text;
    private final TreeMap<Integer, String> added = new TreeMap<>();

    /**
     * Blanks stand for comments, in which Java reads escapes; for a package and imports of what is not there; for
     * modifiers, which java2sdg takes twice and {@code static} on methods with fields; and for {@code @Global}. The class
     * and its methods get names of their own, whatever Object declares and whatever Java keeps a name for. All this is as
     * long as what it stands for.
     */
    JavaText(String written) {
      String marked = blanked(MARK, blanked(HEAD, blanked(COMMENT, written)));
      String named = NAME.matcher(marked).replaceAll(JavaText::named);
      CLASS.matcher(named).results().limit(1).forEach(found -> added.put(found.end(), " extends Turns "));
      METHOD.matcher(named).results().forEach(found -> added.put(found.end(), "if (none()) throw new Limit();"));
      LOOP.matcher(named).results().forEach(found -> added.put(bodyOf(named, found.end()), "if (none()) throw new Limit(); else "));
      StringBuilder made = new StringBuilder(named);
      added.descendingMap().forEach(made::insert);
      text = made.toString();
    }

    /** A name that no class of the platform and no method of Object has: its first letter is the fullwidth one. */
    static String own(String name) {
      return (char) (name.charAt(0) + FULLWIDTH) + name.substring(1);
    }

    /** A message that has the names of the class as it was written. */
    static String asWritten(String message) {
      return OWN.matcher(message).replaceAll(found -> Matcher.quoteReplacement("" + (char) (found.group().charAt(0) - FULLWIDTH)));
    }

    /** How many characters stand before in the class as it was written. */
    int written(int before) {
      int more = 0;
      for (Map.Entry<Integer, String> each : added.entrySet()) {
        if (each.getKey() + more >= before) {
          break;
        }
        more += each.getValue().length();
      }
      return before - more;
    }

    private static String named(MatchResult found) {
      String before = found.group(1) == null ? "" : found.group(1);
      String name = found.group(2);
      boolean isMethod = before.isEmpty() && found.group(3) != null && !SourceVersion.isKeyword(name);
      boolean isClass = before.startsWith("class");
      return Matcher.quoteReplacement(before + (isMethod || isClass ? own(name) : name));
    }

    private static String blanked(Pattern pattern, String text) {
      return pattern.matcher(text).replaceAll(found -> found.group().replaceAll("[^\\r\\n]", " "));
    }

    /** Where the body of a loop begins, whose header is open. */
    private static int bodyOf(String text, int from) {
      int at = from;
      for (int open = 1; open > 0 && at < text.length(); at++) {
        open += text.charAt(at) == '(' ? 1 : text.charAt(at) == ')' ? -1 : 0;
      }
      while (at < text.length() && Character.isWhitespace(text.charAt(at))) {
        at++;
      }
      return at;
    }
  }

  /** Compiles each class together with what it needs of the runtime, in memory and apart from all others. */
  private static final class Compiler implements AutoCloseable {
    private final JavaCompiler javac = ToolProvider.getSystemJavaCompiler();
    private final StandardJavaFileManager files;
    private final List<String> options;

    Compiler(Path runtime) {
      files = javac.getStandardFileManager(null, null, null);
      options = List.of("-proc:none", "-cp", runtime.toString(), "-sourcepath", runtime.toString());
    }

    Class<?> compiled(String written) throws Exception {
      Outputs outputs = new Outputs(files);
      DiagnosticCollector<JavaFileObject> found = new DiagnosticCollector<>();
      JavaText java = new JavaText(written);
      if (!javac.getTask(null, outputs, found, options, null, List.of(new Source(java.text))).call()) {
        throw new Refused("javac: " + messages(found, java, written));
      }
      return new Loader(outputs.classes).loadClass(outputs.main);
    }

    private static String messages(DiagnosticCollector<JavaFileObject> found, JavaText java, String written) {
      List<String> messages = new ArrayList<>();
      for (Diagnostic<?> each : found.getDiagnostics()) {
        if (each.getKind() == Diagnostic.Kind.ERROR) {
          String message = JavaText.asWritten(each.getMessage(null)).replace('\n', ' ').replace(';', ',');
          messages.add(place(written, java.written((int) place(each))) + " " + each.getCode() + " " + message);
        }
      }
      return String.join("; ", messages);
    }

    /** Where the first token stands. A `return` that is missing is missed at the closing brace. */
    private static long place(Diagnostic<?> each) {
      return each.getCode().endsWith(".missing.ret.stmt") ? each.getPosition() : each.getStartPosition();
    }

    /** The line and the column, from 1, at which so many characters stand before. CR, LF and CRLF end a line. */
    private static String place(String text, int before) {
      int line = 1;
      int column = 1;
      for (int i = 0; i < before && i < text.length(); i++) {
        char each = text.charAt(i);
        boolean goesOn = each == '\r' && i + 1 < text.length() && text.charAt(i + 1) == '\n';
        boolean ends = (each == '\r' || each == '\n') && !goesOn;
        line += ends ? 1 : 0;
        column = ends ? 1 : column + 1;
      }
      return line + ":" + column;
    }

    @Override
    public void close() throws IOException {
      files.close();
    }
  }

  /** The text of the class to be run. */
  private static final class Source extends SimpleJavaFileObject {
    private final String text;

    Source(String text) {
      super(URI.create("memory:///Source.java"), Kind.SOURCE);
      this.text = text;
    }

    @Override
    public CharSequence getCharContent(boolean ignoresErrors) {
      return text;
    }

    /** The class need not have the file's name. */
    @Override
    public boolean isNameCompatible(String name, Kind kind) {
      return true;
    }
  }

  /** Keeps the bytes of the compiled classes by name, and the name of the class to be run. */
  private static final class Outputs extends ForwardingJavaFileManager<JavaFileManager> {
    final Map<String, ByteArrayOutputStream> classes = new HashMap<>();
    String main;

    Outputs(JavaFileManager files) {
      super(files);
    }

    @Override
    public JavaFileObject getJavaFileForOutput(Location place, String name, JavaFileObject.Kind kind, FileObject from) {
      if (from instanceof Source) {
        main = name;
      }
      return new SimpleJavaFileObject(URI.create("memory:///out.class"), kind) {
        @Override
        public OutputStream openOutputStream() {
          ByteArrayOutputStream bytes = new ByteArrayOutputStream();
          classes.put(name, bytes);
          return bytes;
        }
      };
    }
  }

  /** Sees the platform's classes and those of one compilation alone. */
  private static final class Loader extends ClassLoader {
    private final Map<String, ByteArrayOutputStream> classes;

    Loader(Map<String, ByteArrayOutputStream> classes) {
      super(ClassLoader.getPlatformClassLoader());
      this.classes = classes;
    }

    @Override
    protected Class<?> findClass(String name) throws ClassNotFoundException {
      ByteArrayOutputStream bytes = classes.get(name);
      if (bytes == null) {
        throw new ClassNotFoundException(name);
      }
      return defineClass(name, bytes.toByteArray(), 0, bytes.size());
    }
  }
}
