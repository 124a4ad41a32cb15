"""What of PHP the language reads otherwise or leaves out, and what to write instead: the tables that docs/LANGUAGE.md shows under "Coming from
PHP"."""
import re
from dataclasses import dataclass

from .runtime_names import CONSTANTS, KEYWORDS, SERVER_KEYS


@dataclass(frozen=True)
class Row:
    """Forms or names of PHP, as a table shows them, and how they are found."""

    php: str
    instead: str
    here: str | None = None
    """What one sees here, where the table tells it."""
    pattern: str = ""
    """Finds a form in code as the function for this table spells it."""
    functions: str = ""
    classes: str = ""
    methods: str = ""
    counts: str = ""
    """Functions that are called with another count of arguments."""

    def markdown(self) -> str:
        """The row as the page shows it."""
        cells = (self.php, self.instead) if self.here is None else (self.php, self.here, self.instead)
        return "".join("| " + cell.replace("|", r"\|") + " " if cell else "| " for cell in cells) + "|"


_KEYWORD = "|".join(sorted(KEYWORDS))
_CONSTANT = "|".join(sorted(CONSTANTS))
_TOO_GREAT = r"\d{20,}|9[3-9]\d{17}|92233720368547758([1-9]\d|0[89])"

OTHERWISE = [
    Row("`exit` in `boot.php` ends the request", "a function that each script calls", "it ends `boot.php` alone, and the page follows"),
    Row(
        "`private`, `protected`, `final`",
        "a policy on what must not leave",
        "no meaning: every property and method is reached from everywhere",
    ),
    Row("types, as `int $n`, `?string $s`, `: bool`", "`(int)$n`, `is_string($s)`", "no meaning: nothing is tested or turned"),
    Row(
        "`public static $n = 0;`",
        "a variable, by `global $n;`",
        "`static` is read as a type: each object has a property `n` of its own",
        r"^(public|protected|private|var|final) ▸static \$",
    ),
    Row(
        "`$GLOBALS`, `$_REQUEST`, `$_FILES`, `$_ENV`",
        "`global $x;`, `$_GET`, `$_POST`",
        "variables that nobody set, so null",
        r"▸\$(?-i:GLOBALS|_REQUEST|_FILES|_ENV) ",
    ),
    Row(
        "`$_SERVER['HTTP_HOST']` and its kin",
        "",
        "null: it has `REQUEST_METHOD`, `REQUEST_URI` and `QUERY_STRING` alone",
        rf"▸\$(?-i:_SERVER) \[ (?!['\"]({'|'.join(sorted(SERVER_KEYS))})['\"])['\"]",
    ),
    Row(
        "`$_SESSION` holds values of any kind, once `session_start` was called",
        "a value of its own for each item",
        "it is there without a call, and keeps integers and texts alone: anything else is the fault `NotStorable` when the page ends",
    ),
    Row("undefined variables, keys and properties", "`isset`", "null without a warning"),
    Row("`$s[5]` behind the end is `''`, with a warning", "`$s[5] ?? ''`", "null"),
    Row(
        "`__get`, `__set`, `__call`, `__destruct` and other methods with `__`",
        "a method that is called by its name",
        "never called by the runtime, but for `__construct`",
        r"^function ▸__(?!construct )",
    ),
    Row("messages of the runtime's exceptions, as `Division by zero`", "the class of the exception", "empty; the code is 0"),
    Row("`new Exception('m', 1, $previous)`", "a class of your own with a property for it", "the third argument is passed over"),
    Row("`header()` behind output fails, with a warning", "", "it is set: an answer leaves once its script ended"),
    Row("`foreach ($a as $x => $x)` leaves the key", "two names", "it leaves the value"),
    Row("`<? echo 1 ?>` with short tags on", "`<?php`, `<?=`", "inline text, which is sent as it stands"),
    Row("`trim('abc', 'a..c')`", "all the bytes", "`..` is no range"),
]

LESS = [
    Row("`header('Location: /x', true, 301)`", "`http_response_code(301); header('Location: /x');`", "`Uncaught ArgumentCountError`", counts="header"),
    Row(
        "`header('HTTP/1.1 404 Not Found')`, `header('Content-Length: 3')`",
        "`http_response_code(404);`; the length is told by itself",
        "`Uncaught ValueError`",
    ),
    Row(
        "`http_response_code()`",
        "a variable; `http_response_code(n)` answers the status before",
        "`Uncaught ArgumentCountError`",
        counts="http_response_code",
    ),
    Row("`mail($to, $subject, $message, 'From: x')`", "the first three", "`Uncaught ArgumentCountError`", counts="mail"),
    Row(
        "`htmlspecialchars($s, ENT_QUOTES, 'UTF-8')`",
        "`htmlspecialchars($s)`, which escapes both quotes",
        "`Syntax`, as there is no constant of that name; with numbers `Uncaught ArgumentCountError`",
        r"\bhtmlspecialchars \(.* ENT_\w+ ▸",
        counts="htmlspecialchars",
    ),
    Row(
        "`implode($a)`, `array_merge($a)`, `get_class()`",
        "`implode('', $a)`, `array_merge($a, [])`, `get_class($this)`",
        "`Uncaught ArgumentCountError`",
        counts="implode array_merge get_class",
    ),
    Row(
        "further arguments of `explode`, `strrpos`, `substr_count`, `str_replace`, `array_keys`, `count`, `nl2br`, `md5`, `sha1`, `intval`, `ob_start`",
        "a loop",
        "`Uncaught ArgumentCountError`",
        counts="explode strrpos substr_count str_replace array_keys count nl2br md5 sha1 intval ob_start",
    ),
    Row("`implode($array, $glue)`, `str_replace` in an array of texts", "the glue first; a loop", "`Uncaught TypeError`"),
    Row(
        "`sprintf` with `%.2f`, `%u`, `%X`, `%+d`, `%.3s`, `%'*10s`, `%1$s`",
        "`%s`, `%d`, `%x`, `%%` with `-`, `0` and a width",
        "`Uncaught ValueError`",
    ),
]

FORMS = [
    Row(
        "closures and arrow functions: `function ($a) { }`, `fn($a) => $a`, `static fn`",
        "a function with a name, at the top level of a file; functions are no values",
        pattern=r"▸function (& )?\(|\bfn \(.*▸=>|\bstatic ▸fn\b",
    ),
    Row(
        "functions and classes in blocks, functions or conditions, `if (!function_exists('f')) { function f() { } }`, `new class { }`",
        "the declaration at the top level, where it always counts",
        pattern=r"(?<!static )(?<!abstract )▸(function|class) \w+|\bnew ▸class\b",
    ),
    Row("`match ($a) { .. }`", "`switch`, or `? :`", pattern=r"\bmatch \(.*▸\{"),
    Row("`throw` as an operand: `$b ?? throw new E()`", "`if (!isset($b)) throw new E();`", pattern=r"▸throw\b"),
    Row(
        "`static` methods, `static $n;` in functions and, without another word, in classes",
        "a function; a variable by `global $n;`",
        pattern=r"▸static (?!::)|\bstatic ▸(?!::)",
    ),
    Row(
        "`A::m()`, `A::$n`, `A::X`, `A::class`, `self::m()`, `static::m()`",
        "`$a->m()`, `$this->m()`, the name as a text; `parent::m()` is there",
        pattern=r"▸::",
    ),
    Row(
        "constants: `const X = 1;` in a class and outside, `__DIR__`, `__FILE__`, `PHP_VERSION`, `M_PI`, `E_ALL`",
        "a function that returns the value, or a property",
        pattern=rf"▸const\b|\bconst ▸|(?<!-> )(?<!new )(?<!function )\b(?!({_CONSTANT}) )(?-i:[A-Z_][A-Z0-9_]+) ▸(?![:$\w])",
    ),
    Row(
        "`trait`, `interface`, `implements`, `abstract`, `enum`",
        "a class, and classes that extend it; a method that throws",
        pattern=r"\b(trait|interface|enum|abstract) ▸|▸(implements|abstract)\b",
    ),
    Row(
        "`readonly`, and promoted parameters: `__construct(public $a)`",
        "`public $a;`, and `$this->a = $a;` in the constructor",
        pattern=r"\breadonly ▸|▸readonly\b|[(,] ▸(public|protected|private)\b",
    ),
    Row("`array` as a type: `array $list`, `: array`", "no type", pattern=r"▸array (\$v|&|\.\.\.)|[:?|] ▸array\b"),
    Row(
        "a sum as a default: `public $n = 60 * 60;`",
        "`3600`, or an assignment in the constructor",
        pattern=r"^((public|protected|private|var|final) )+(\w+ )?\$v = .*▸[*+/.%-]|\bfunction \w+ \(.*\$v = [^,]*▸[*+/.%-] ",
    ),
    Row(
        "floats: `1.5`, `1e3`, an integer above 9223372036854775807",
        "integers of a smaller unit, as cents: `sprintf('%d.%02d', intdiv($c, 100), $c % 100)`",
        pattern=rf"▸(\d+\.\d*|\.\d+|\d+e\d*|{_TOO_GREAT})( |$)",
    ),
    Row(
        "references: `function f(&$a)`, `$b = &$a`, `foreach ($a as &$v)`",
        "the new value as a result; in a loop `$a[$k] = ..`",
        pattern=r"([(,=>]|\bas|\breturn|\bfunction) ▸& |\bfunction \w+ \(.*▸& ",
    ),
    Row(
        "`list($a, $b) = $c`, `[$a, $b] = $c`, `foreach ($c as [$a, $b])`",
        "`$a = $c[0]; $b = $c[1];`",
        pattern=r"\blist \(.*▸=|(^|\( )\[.*\] ▸=|\bas (\$v => )?▸(\[|list\b)",
    ),
    Row("heredocs and nowdocs: `<<<X`", "a text in quotes, which may have several lines, or inline text", pattern=r"▸<<<"),
    Row("`\"${a}\"`, `\"{$o->{'p'}}\"`", '`"{$a}"`, `"{$o->p}"`', pattern=r'▸"\$\{|"\{ ▸'),
    Row("`exit('bye')`, `die('bye')`, `f() or die()`", "`echo 'bye'; exit;`, `if (!f()) { .. exit; }`", pattern=r"\b(exit|die) \( ▸|▸or (exit|die)\b"),
    Row("`print 'a'`", "`echo 'a'`", pattern=r"\bprint ▸", functions="print"),
    Row("`clone $a`", "a new object with the same properties", pattern=r"\bclone ▸"),
    Row(
        "`$$a`, `$f()`, `new $class`, `$o->$p`, `$o->{'p'}`, `$e instanceof $class`",
        "an array; `switch` over the name; `get_class($e) == $class`",
        pattern=r"▸\$ |(\$v|\]) ▸\(|\b(new|instanceof) ▸(\$v|\()|-> ▸(\$v|\{)",
    ),
    Row("`namespace`, `use`, `\\strlen('a')`", "names without them; all functions and classes share one space", pattern=r"▸\\|^(namespace|use) ▸|▸use\b"),
    Row("`and`, `or`, `xor`", "`&&`, `||`, `!=` of two booleans", pattern=r"▸(and|or|xor)\b"),
    Row("`?->`", "`->`: a property of null is null; `isset($a) ? $a->m() : null`", pattern=r"\?-> ▸"),
    Row("`@f()`", "`f()`: nothing here warns", pattern=r"▸@"),
    Row("`**`, and `& | ^ ~ << >>` with their assignments", "a loop; `* 2`, `intdiv` and `% 2`", pattern=r"\*\* ▸|▸[&|^~] |< ▸<|> ▸>"),
    Row(
        "`(float)`, `(array)`, `(object)`, `(integer)`, `(boolean)`",
        "`(int)`, `(string)`, `(bool)`; `[$a]`",
        pattern=r"\( (float|double|real|array|object|integer|boolean|binary|unset) ▸\)",
    ),
    Row("`1_000`, `0o17`, `0X1F`", "`1000`, `017`, `0x1F`", pattern=r"▸(\d\w*_\w*|0o\d+|0(?-i:X)\w+)"),
    Row(
        "spread, variadic and named arguments: `f(...$a)`, `f(a: 1)`",
        "one parameter for an array; the arguments in their order",
        pattern=r"▸\.\.\.|[(,] \w+ ▸: ",
    ),
    Row("a last comma in parameters, `isset` or `unset`", "none; calls and arrays may have one", pattern=r", ▸\)"),
    Row("`break 2`, `continue 2`", "a variable that the outer loop tests", pattern=r"\b(break|continue) ▸\d"),
    Row("`switch (..):`, `case 1;`", "`switch (..) { case 1: .. }`", pattern=r"\bswitch \(.*\) ▸:|\bcase .* ▸;|\bdefault ▸;"),
    Row(
        "keywords as names of methods and properties: `function default()`, `$o->class`",
        "another name",
        pattern=rf"(->|\bfunction( &)?) ▸({_KEYWORD})\b",
    ),
    Row("`new C()->m()`", "`(new C())->m()`", pattern=r"\bnew \w+ (\(.*\) )?▸->"),
    Row(
        "attributes `#[A]`, `declare(..)`, `goto`, `yield`, backticks",
        "a comment; nothing for the others",
        pattern=r"▸#\[|\bdeclare \(.*▸=|\b(goto|yield) ▸|▸`",
    ),
]

NAMES = [
    Row(
        "`sort`, `rsort`, `usort`, `asort`, `ksort` and their kin",
        "a loop, as `sorted` of docs/LANGUAGE.md",
        functions="sort rsort usort asort ksort arsort krsort uasort uksort natsort natcasesort array_multisort shuffle",
    ),
    Row(
        "`array_push`, `array_pop`, `array_shift`, `array_unshift`, `array_splice`",
        "`$a[] = 1;`, `$a[count($a) - 1]` and `array_slice($a, 0, -1)`, `array_slice($a, 1)`, `array_merge([1], $a)`",
        functions="array_push array_pop array_shift array_unshift array_splice",
    ),
    Row(
        "`array_map`, `array_filter`, `array_reduce`, `array_walk`, `array_search`, `array_unique`, `array_sum`, `array_flip`, `array_column`, "
        "`array_combine`, `array_diff`, `range`, `end`, `reset`, `compact`, `extract`",
        "`foreach` and `for`",
        functions="array_map array_filter array_reduce array_walk array_walk_recursive array_search array_unique array_sum array_product array_flip "
        "array_column array_combine array_diff array_diff_key array_intersect array_intersect_key array_fill array_fill_keys array_pad array_chunk "
        "array_count_values array_merge_recursive array_replace array_key_first array_key_last array_is_list key_exists range end reset current next prev "
        "key each compact extract iterator_to_array",
    ),
    Row(
        "`json_encode`, `json_decode`, `serialize`, `print_r`, `var_dump`, `var_export`",
        "a function of your own that walks the value",
        functions="json_encode json_decode serialize unserialize print_r var_dump var_export debug_zval_refcount",
    ),
    Row(
        "`preg_match`, `preg_replace`, `preg_split`",
        "`strpos`, `substr`, `str_replace`, `explode`; all digits: `trim($s, '0123456789') === ''`",
        functions="preg_match preg_match_all preg_replace preg_replace_callback preg_split preg_quote preg_grep ereg ereg_replace sscanf fnmatch",
    ),
    Row(
        "`date`, `time`, `strtotime`, `microtime`, `new DateTime()`",
        "nothing: a run has no clock, so that it can be repeated",
        functions="date time strtotime microtime gmdate mktime gmmktime hrtime checkdate getdate localtime strftime date_create date_default_timezone_get "
        "date_default_timezone_set sleep usleep",
        classes="DateTime DateTimeImmutable DateInterval DateTimeZone DatePeriod",
    ),
    Row(
        "`rand`, `mt_rand`, `random_int`, `random_bytes`, `uniqid`",
        "nothing, for the same reason",
        functions="rand mt_rand random_int random_bytes uniqid srand mt_srand mt_getrandmax getrandmax lcg_value array_rand str_shuffle "
        "openssl_random_pseudo_bytes",
    ),
    Row(
        "`password_hash`, `password_verify`, `hash`, `hash_equals`, `crypt`",
        "nothing as good: `md5` and `sha1` are there, and are no way to keep passwords",
        functions="password_hash password_verify password_needs_rehash hash hash_equals hash_hmac crypt",
    ),
    Row(
        "`session_start`, `session_destroy`, `session_id`",
        "nothing to begin; to end, `$_SESSION = []`; the name is `$_COOKIE['sid']`",
        functions="session_start session_destroy session_id session_name session_regenerate_id session_unset session_write_close",
    ),
    Row(
        "`setcookie`, `header_remove`, `headers_sent`",
        "`header('Set-Cookie: name=value', false)`",
        functions="setcookie setrawcookie header_remove headers_sent headers_list",
    ),
    Row("`printf`, `vsprintf`, `number_format`", "`echo sprintf(..)`", functions="printf vsprintf vprintf fprintf number_format"),
    Row("`stripos`, `strcasecmp`, `str_ireplace`", "`strtolower` of both sides", functions="stripos strripos strcasecmp strncasecmp str_ireplace stristr strnatcasecmp"),
    Row(
        "`strstr`, `strtr`, `substr_replace`, `str_split`, `wordwrap`, `ucwords`, `lcfirst`, `stripslashes`",
        "`substr`, `strpos`, `str_replace`, `$s[$i]`",
        functions="strstr strrchr strtr substr_replace substr_compare str_split chunk_split str_word_count wordwrap ucwords lcfirst stripslashes strncmp "
        "strnatcmp strspn strcspn strpbrk strtok similar_text levenshtein",
    ),
    Row(
        "`htmlentities`, `html_entity_decode`, `strip_tags`",
        "`htmlspecialchars`",
        functions="htmlentities html_entity_decode htmlspecialchars_decode strip_tags",
    ),
    Row(
        "`mb_strlen`, `mb_substr` and their kin, `iconv`",
        "`strlen`, `substr`, which count bytes",
        functions="mb_strlen mb_substr mb_strpos mb_strrpos mb_strtoupper mb_strtolower mb_internal_encoding mb_convert_encoding mb_check_encoding "
        "mb_str_split mb_strwidth mb_substr_count iconv iconv_strlen iconv_substr utf8_encode utf8_decode",
    ),
    Row("`join`, `sizeof`, `chop`, `is_integer`", "`implode`, `count`, `rtrim`, `is_int`", functions="join sizeof chop is_integer is_long"),
    Row(
        "`min`, `max`, `round`, `floor`, `ceil`, `pow`, `is_float`, `floatval`",
        "`$a < $b ? $a : $b`, `intdiv`",
        functions="min max round floor ceil pow sqrt fmod exp log log10 pi is_float is_double is_nan is_infinite floatval doubleval base_convert bindec "
        "decbin dechex decoct hexdec octdec",
    ),
    Row(
        "`ctype_digit`, `gettype`, `boolval`, `settype`, `filter_var`",
        "`is_int`, `is_string`, `is_numeric`, `(bool)`, `(int)`",
        functions="ctype_digit ctype_alpha ctype_alnum ctype_space ctype_upper ctype_lower ctype_punct ctype_xdigit gettype get_debug_type boolval settype "
        "filter_var filter_input is_scalar is_iterable is_countable is_resource",
    ),
    Row(
        "`urldecode`, `parse_url`, `parse_str`, `http_build_query`, `base64_encode`, `crc32`",
        "`$_GET`, which is decoded; `urlencode`, `bin2hex`",
        functions="urldecode rawurldecode parse_url parse_str http_build_query base64_encode base64_decode crc32 hex2bin pack unpack str_rot13 "
        "quotemeta addcslashes nl_langinfo",
    ),
    Row(
        "`ob_get_contents`, `ob_get_flush`, `flush`",
        "`ob_get_clean`, `ob_end_flush`",
        functions="ob_get_contents ob_get_flush ob_clean ob_flush ob_get_level ob_get_length ob_implicit_flush flush",
    ),
    Row(
        "`call_user_func`, `func_get_args`, `function_exists`, `method_exists`, `class_exists`, `is_callable`",
        "a call by its name",
        functions="call_user_func call_user_func_array func_get_args func_get_arg func_num_args function_exists method_exists property_exists class_exists "
        "is_callable is_a is_subclass_of get_object_vars get_class_methods get_parent_class spl_autoload_register spl_object_id spl_object_hash",
        classes="Closure ReflectionClass",
    ),
    Row(
        "`define`, `ini_set`, `error_reporting`, `error_log`, `trigger_error`, `set_error_handler`, `assert`, `eval`",
        "a function that returns the value; an exception",
        functions="define defined constant ini_set ini_get set_time_limit error_reporting error_log trigger_error set_error_handler set_exception_handler "
        "restore_error_handler register_shutdown_function assert eval debug_backtrace debug_print_backtrace phpinfo phpversion php_sapi_name getenv "
        "gc_collect_cycles memory_get_usage setlocale version_compare",
    ),
    Row(
        "`fopen`, `fread`, `file`, `is_file`, `scandir`, `exec`, `curl_init`",
        "nothing: a script reaches nothing outside its site",
        functions="fopen fread fgets fgetcsv fputcsv fwrite fputs fclose feof flock file readfile is_file is_dir is_readable is_writable mkdir rmdir opendir "
        "scandir glob rename copy touch chmod filesize filemtime basename dirname pathinfo realpath tempnam move_uploaded_file "
        "is_uploaded_file "
        "exec system shell_exec passthru popen proc_open escapeshellarg curl_init curl_exec fsockopen stream_context_create gethostbyname",
    ),
    Row(
        "`mysqli_query`, `new PDO(..)`",
        "`sql_query`, over the tables of the site",
        functions="mysqli_connect mysqli_query mysqli_real_escape_string mysql_connect mysql_query mysql_real_escape_string sqlite_query pg_query",
        classes="PDO mysqli SQLite3",
    ),
    Row("`new stdClass()`, `new ArrayObject()`", "an array, or a class of your own", classes="stdClass ArrayObject ArrayIterator SplObjectStorage SplStack SplQueue"),
    Row(
        "`new InvalidArgumentException()`, `new RuntimeException()` and the other classes of the SPL",
        "a class of that name in `boot.php`: `class RuntimeException extends Exception { }`",
        classes="InvalidArgumentException RuntimeException LogicException DomainException LengthException OutOfBoundsException OutOfRangeException "
        "OverflowException RangeException UnderflowException UnexpectedValueException BadFunctionCallException BadMethodCallException ErrorException "
        "JsonException PDOException UnhandledMatchError AssertionError",
    ),
    Row("`new self()`, `new static()`", "the name of the class", classes="self static"),
    Row("`class B extends A { }` before `class A { }`", "the parent first"),
    Row(
        "`$e->getLine()`, `getFile()`, `getTrace()`, `getTraceAsString()`, `getPrevious()`",
        "`getMessage()`, `getCode()`",
        methods="getLine getFile getTrace getTraceAsString getPrevious",
    ),
]

def instead_of(kind: str, name: str) -> tuple[str, ...]:
    """What to write instead of a `function`, `class` or `method` of PHP that the runtime hasn't, or of a call with another `count` of arguments;
    nothing where the tables don't tell."""
    row = _BY_NAME.get((kind, name.lower()))
    return (f"instead: {row.instead}",) if row else ()


def is_missing_method(name: str) -> bool:
    """Whether PHP's exceptions have a method that those of the runtime haven't."""
    return ("method", name.lower()) in _BY_NAME


def instead_of_form(statement: str) -> tuple[str, ...]:
    """What to write instead of a form that stands at a fault, nothing where the tables don't tell. The statement is spelled as the tokens up
    to the one behind the fault, with a space between them and `▸` before the fault: `$v` for a variable, `''` for a text, `"{` for one
    that the fault stands in, `"${` for one with such a part."""
    for row in LESS + FORMS:
        if row.pattern and re.search(row.pattern, statement, re.I):
            return f"left out: {row.php}", f"instead: {row.instead}"
    return ()


def otherwise(code: str) -> tuple[str, ...]:
    """What a form does here that is read otherwise than in PHP, and what to write instead; nothing for other code. The code is a token with `▸`
    before it, the one before it and the two behind it, with a space behind each."""
    for row in OTHERWISE:
        if row.pattern and re.search(row.pattern, code, re.I):
            return (f"{row.php}: {row.here}", *([f"instead: {row.instead}"] if row.instead else []))
    return ()


def _by_name() -> dict[tuple[str, str], Row]:
    rows = [(row, kind, getattr(row, names)) for row in LESS + FORMS + NAMES for kind, names in _KINDS.items()]
    return {(kind, name.lower()): row for row, kind, names in rows for name in names.split()}


_KINDS = {"function": "functions", "class": "classes", "method": "methods", "count": "counts"}
_BY_NAME = _by_name()
