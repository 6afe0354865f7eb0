# Stores, reads and deletes by Moneta's adapter for CouchDB, in the database `db` at the port that is given. Prints one line for each.
require "moneta"

store = Moneta::Adapters::Couch.new(host: "127.0.0.1", port: ARGV[0].to_i, db: "db")
puts "store #{store.store('moneta', 'one')}"
puts "load #{store.load('moneta')}"
puts "key #{store.key?('moneta')} #{store.key?('absent')}"
puts "again #{store.store('moneta', 'two')} #{store.load('moneta')}"
puts "delete #{store.delete('moneta')} #{store.key?('moneta')}"
