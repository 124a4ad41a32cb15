<?php
// Runs before each page: what the site's data may do, and who is asked about it. The pages are written as if nothing could go wrong; three of
// them go wrong, and what stands here stops them.

// A password leaves by mail to its owner, and by no other way.
class Password extends Policy {
    public $mail;
    function __construct($mail) { $this->mail = $mail; }
    function export_check($context) {
        if ($context['type'] == 'email' && $context['email'] === $this->mail) return;
        throw new PolicyException('a password');
    }
}

// A private note leaves to the visitor who wrote it.
class OwnNote extends Policy {
    public $owner;
    function __construct($owner) { $this->owner = $owner; }
    function export_check($context) {
        if ($context['type'] == 'http' && ($_SESSION['user'] ?? '') === $this->owner) return;
        throw new PolicyException('a note of somebody else');
    }
}

// What came from a browser, also long ago: it may leave, but as data of a page or of a statement alone.
class FromOutside extends Policy { }

class MarkInputs extends Filter {
    function filter_read($data, $context) { return policy_add($data, new FromOutside()); }
}
filter_add('input', new MarkInputs());

class NoForeignMarkup extends Filter {
    function filter_write($data, $context) {
        if (html_structure($data, 'FromOutside')) return $data;
        throw new PolicyException('markup from outside');
    }
}
filter_add('http', new NoForeignMarkup());

function is_from_outside($text) {
    foreach (policy_get($text) as $policy) {
        if ($policy instanceof FromOutside) return true;
    }
    return false;
}

// A statement without a byte from outside is the site's own; totals are among these alone, since sql_structure takes none.
class NoForeignSql extends Filter {
    function filter_write($data, $context) {
        if (!is_from_outside($data) || sql_structure($data, 'FromOutside')) return $data;
        throw new PolicyException('a statement from outside');
    }
}
filter_add('sql', new NoForeignSql());

// The tables, made when a statement finds none.
function make_tables() {
    sql_query('CREATE TABLE users (name TEXT, mail TEXT, password TEXT)');
    sql_query('CREATE TABLE sessions (sid TEXT, name TEXT)');
    sql_query('CREATE TABLE notes (id INTEGER, owner TEXT, note TEXT)');
    sql_query('CREATE TABLE posts (id INTEGER, reply_to INTEGER, author TEXT, post TEXT)');
}

function query($statement) {
    try {
        return sql_query($statement);
    } catch (SqlException $e) {
        if ($e->getMessage() != 'no table') throw $e;
    }
    make_tables();
    return sql_query($statement);
}

// A number that no row of the table has.
function next_id($table) {
    return (int)query("SELECT MAX(id) FROM $table")[0]['MAX(id)'] + 1;
}

// The visitor's name, '' for one who isn't logged in. A session gets its name in the first request behind the login.
function user() {
    if (!isset($_SESSION['user']) && isset($_COOKIE['sid'])) {
        foreach (query('SELECT name FROM sessions WHERE sid = ' . sql_quote($_COOKIE['sid'])) as $row) $_SESSION['user'] = $row['name'];
    }
    return $_SESSION['user'] ?? '';
}

function html($text) { return htmlspecialchars($text); }

function redirect($path) {
    header("Location: $path");
    exit;
}

function head($title) {
    echo "<!doctype html>\n<html lang=\"en\">\n<meta charset=\"utf-8\">\n<title>$title</title>\n<link rel=\"stylesheet\" href=\"/style.css\">\n";
    echo "<nav><a href=\"/\">Board</a> <a href=\"/notes.php\">Notes</a> ";
    if (user() === '') {
        echo "<a href=\"/signup.php\">Sign up</a> <a href=\"/login.php\">Log in</a>";
    } else {
        if (user() === 'admin') echo "<a href=\"/admin.php\">Visitors</a> ";
        echo "<a href=\"/logout.php\">Log out</a> <b>", html(user()), '</b>';
    }
    echo "</nav>\n<h1>$title</h1>\n";
}

// A page goes out whole, in one write, so that its filter sees all of it.
ob_start();
