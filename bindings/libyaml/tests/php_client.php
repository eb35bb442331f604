<?php
// php-yaml over a file: its documents, and what it emits of them.
//
//     php_client.php FILE..
//
// A warning that is none of the parser's says where the scanner is, by a private field of libyaml's: its place is left out.
set_error_handler(function ($number, $text) {
    print (str_contains($text, 'parsing error') ? $text : preg_replace('/\(line \d+, column \d+\)/', '', $text)) . "\n";
    return true;
});
foreach (array_slice($argv, 1) as $path) {
    print "\n@@ $path\n";
    $documents = yaml_parse(file_get_contents($path), -1, $count);
    var_dump($count, $documents);
    if ($documents !== false) {
        foreach ($documents as $value) {
            print yaml_emit($value) . yaml_emit($value, YAML_UTF8_ENCODING, YAML_CRLN_BREAK);
        }
    }
}
