#!/usr/bin/env bash
# A report of all sales by region and amount, page by page, with curl and sed alone.
#
# usage: report.sh URL        the URL of an empty database, such as http://127.0.0.1:5984/db
set -euo pipefail
url=$1
size=3

ask() { # ask TARGET BODY: the reply, or an error
  local reply
  reply=$(curl -sS "$url/$1" -d "$2")
  case $reply in
    '{"error"'*) echo "$reply" >&2; return 1 ;;
  esac
  echo "$reply"
}

# The rows of a page: region, amount and id. A reply is compact, and its members are in the order of their names.
rows() {
  tr '{' '\n' | sed -n 's/^"_id":"\([^"]*\)","amount":\(-*[0-9]*\),"region":"\([^"]*\)".*/\3 \2 \1/p'
}

ask _bulk_docs '{"docs":[
  {"_id":"s1","region":"north","amount":250}, {"_id":"s2","region":"south","amount":90}, {"_id":"s3","region":"north","amount":40},
  {"_id":"s4","region":"west","amount":700},  {"_id":"s5","region":"south","amount":90}, {"_id":"s6","region":"north","amount":1000},
  {"_id":"s7","region":"south","amount":-15}, {"_id":"note","text":"no sale"}]}' > /dev/null
ask _index '{"index":{"fields":["region","amount"]},"ddoc":"report","name":"sales"}' > /dev/null

bookmark=nil
page=0
total=0
while true; do
  reply=$(ask _find '{"selector":{"region":{"$exists":true},"amount":{"$exists":true}},"sort":["region","amount"],
    "fields":["_id","amount","region"],"limit":'$size',"bookmark":"'"$bookmark"'"}')
  bookmark=$(sed -n 's/.*"bookmark":"\([^"]*\)".*/\1/p' <<< "$reply")
  found=$(rows <<< "$reply")
  [ -n "$found" ] || break
  page=$((page + 1))
  echo "page $page"
  while read -r region amount id; do
    printf '  %-6s %5d  %s\n' "$region" "$amount" "$id"
    total=$((total + amount))
  done <<< "$found"
done
echo "total $total on $page pages"
