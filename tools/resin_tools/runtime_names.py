"""The names that the runtime has, and how many arguments its functions take. A test compares them with docs/LANGUAGE.md and with the crates."""

KEYWORDS = frozenset(
    "array as break case catch class continue default die do echo else elseif empty endfor endforeach endif endwhile exit extends final finally for "
    "foreach function global if include include_once instanceof isset new parent private protected public require require_once return switch throw "
    "try unset var while".split()
)

CONSTANTS = frozenset("true false null PHP_INT_MAX PHP_INT_MIN PHP_EOL FILE_APPEND STR_PAD_LEFT STR_PAD_RIGHT".split())

# By the least and the greatest count of arguments.
_BY_COUNT = {
    (0, 0): "ob_end_clean ob_end_flush ob_get_clean ob_start",
    (1, 1): "abs addslashes array_keys array_values bin2hex chr count file_exists file_get_contents get_class htmlspecialchars http_response_code intval is_array is_bool is_int is_null "
    "is_numeric is_object is_string md5 nl2br ord policy_get rawurlencode sha1 sql_query sql_quote strlen strrev strtolower strtoupper strval ucfirst unlink urlencode",
    (1, 2): "array_reverse header ltrim rtrim trim",
    (1, None): "sprintf",
    (2, 2): "array_key_exists explode filter_add filter_func_add filter_remove html_structure implode intdiv policy_add policy_remove sql_structure "
    "str_contains str_ends_with str_repeat str_starts_with strcmp strrpos substr_count",
    (2, 3): "file_put_contents in_array strpos substr",
    (2, 4): "array_slice str_pad",
    (2, None): "array_merge",
    (3, 3): "mail str_replace",
}

# How many arguments a function takes, at least and at most; None where there may be any number.
COUNTS: dict[str, tuple[int, int | None]] = {name: counts for counts, names in _BY_COUNT.items() for name in names.split()}

FUNCTIONS = frozenset(COUNTS)

CLASSES = frozenset(
    "ArgumentCountError ArithmeticError DivisionByZeroError Error Exception Filter LostPolicy NoExport Policy PolicyException SqlException Throwable "
    "TypeError ValueError".split()
)

SERVER_KEYS = frozenset("REQUEST_METHOD REQUEST_URI QUERY_STRING".split())
