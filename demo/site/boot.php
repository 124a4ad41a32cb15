<?php
// Runs before each page: the site's policies, and a filter on what its pages write.

// A password leaves by mail to its owner, and by no other way.
class PasswordPolicy extends Policy {
    public $to;
    function __construct($to) { $this->to = $to; }
    function export_check($context) {
        if ($context['type'] == 'email' && $context['email'] == $this->to) return;
        throw new PolicyException('a password');
    }
}

// A visitor's note leaves to the session that it was written in.
class OwnNote extends Policy {
    public $of;
    function __construct($of) { $this->of = $of; }
    function export_check($context) {
        if (($_COOKIE['sid'] ?? '') === $this->of) return;
        throw new PolicyException('a note of somebody else');
    }
}

// Marks what came with a request. It may leave, but it is no part of a page or of a statement but data.
class FromOutside extends Policy { }

class NoForeignTags extends Filter {
    function filter_write($data, $context) {
        if (html_structure($data, 'FromOutside')) return $data;
        throw new PolicyException('a tag from outside');
    }
}
filter_add('http', new NoForeignTags());

class NoForeignSql extends Filter {
    function filter_write($data, $context) {
        if (sql_structure($data, 'FromOutside')) return $data;
        throw new PolicyException('a statement from outside');
    }
}
filter_add('sql', new NoForeignSql());

function input($name) { return policy_add($_GET[$name] ?? $_POST[$name] ?? '', new FromOutside()); }
