// Oberon-0 for tree-sitter. The rules have the names of docs/LANGUAGE.md, Grammar, rule 1.
const list = (separator, rule) => seq(rule, repeat(seq(separator, rule)));
const declarations = ($) => seq(optional($.constants), optional($.types), optional($.variables), repeat(seq($.procedure, ";")));
// (a statement may be empty: there may be any number of semicolons between two)
const sequence = ($) => seq(optional($._statement), repeat(seq(";", optional($._statement))));

module.exports = grammar({
  name: "oberon0",
  extras: ($) => [/[ \t\r\n]/, $.comment],
  word: ($) => $.identifier,
  externals: ($) => [$.comment],
  rules: {
    module: ($) => seq("MODULE", field("name", $.identifier), ";", declarations($), optional($.body), "END", field("end", $.identifier), "."),
    body: ($) => seq("BEGIN", sequence($)),

    constants: ($) => seq("CONST", repeat(seq($.constant, ";"))),
    constant: ($) => seq(field("name", $.identifier), "=", field("value", $._expression)),
    types: ($) => seq("TYPE", repeat(seq($.type_declaration, ";"))),
    type_declaration: ($) => seq(field("name", $.identifier), "=", field("type", $._type)),
    variables: ($) => seq("VAR", repeat(seq($.variable, ";"))),
    variable: ($) => seq(list(",", field("name", $.identifier)), ":", field("type", $._type)),
    procedure: ($) =>
      seq(
        "PROCEDURE", field("name", $.identifier), optional($.formals), ";",
        declarations($), optional($.body), "END", field("end", $.identifier),
      ),
    formals: ($) => seq("(", optional(list(";", $.section)), ")"),
    section: ($) => seq(optional("VAR"), list(",", field("name", $.identifier)), ":", field("type", $._type)),

    _type: ($) => choice($.type_name, $.array, $.record),
    type_name: ($) => $.identifier,
    array: ($) => seq("ARRAY", field("length", $._expression), "OF", field("element", $._type)),
    record: ($) => seq("RECORD", optional($.fields), repeat(seq(";", optional($.fields))), "END"),
    fields: ($) => seq(list(",", field("name", $.identifier)), ":", field("type", $._type)),

    _statement: ($) => choice($.assignment, $.call, $.if, $.while, $.repeat),
    assignment: ($) => seq(field("target", $.designator), ":=", field("value", $._expression)),
    call: ($) => seq(field("procedure", $.identifier), optional($.arguments)),
    arguments: ($) => seq("(", optional(list(",", $._expression)), ")"),
    if: ($) => seq("IF", field("condition", $._expression), "THEN", sequence($), repeat($.elsif), optional($.else), "END"),
    elsif: ($) => seq("ELSIF", field("condition", $._expression), "THEN", sequence($)),
    else: ($) => seq("ELSE", sequence($)),
    while: ($) => seq("WHILE", field("condition", $._expression), "DO", sequence($), "END"),
    repeat: ($) => seq("REPEAT", sequence($), "UNTIL", field("condition", $._expression)),

    _expression: ($) => choice($.relation, $._simple),
    relation: ($) => seq(field("left", $._simple), field("operator", choice("=", "#", "<", "<=", ">", ">=")), field("right", $._simple)),
    _simple: ($) => choice($.sum, $.signed, $._term),
    sum: ($) => seq(field("left", $._simple), field("operator", choice("+", "-", "OR")), field("right", $._term)),
    signed: ($) => seq(field("operator", choice("+", "-")), $._term),
    _term: ($) => choice($.product, $._factor),
    product: ($) => seq(field("left", $._term), field("operator", choice("*", "DIV", "MOD", "&")), field("right", $._factor)),
    _factor: ($) => choice($.designator, $.integer, $.parenthesized, $.not),
    parenthesized: ($) => seq("(", $._expression, ")"),
    not: ($) => seq("~", $._factor),
    designator: ($) => seq($.identifier, repeat(choice($.selected_field, $.index))),
    selected_field: ($) => seq(".", field("name", $.identifier)),
    index: ($) => seq("[", $._expression, "]"),

    identifier: () => /[A-Za-z][A-Za-z0-9]*/,
    integer: () => /[0-9]+/,
  },
});
