<?php
// Logs two records by Monolog's handler for CouchDB into the database `db` at the port that is given.
require "Monolog/autoload.php";

$handler = new Monolog\Handler\CouchDBHandler(["host" => "127.0.0.1", "port" => (int) $argv[1], "dbname" => "db"]);
$log = new Monolog\Logger("channel");
$log->pushHandler($handler);
$log->warning("first");
$log->error("second");
