//! The help of JSON and of values between commas.

pub const JSON_FORM: &str = "\
With --json venue sheet, explain and audit write JSON: one object a line. Names and what
they stand for stay as they are; fields and types of objects may be added. Fields of
messages and records have the names of the tables of documents 01 and 02. Numbers are
whole; sides, statuses, classes, causes and refusals are the numbers of those documents.

A record:

  kind, name          64 to 72, and answer, trade, pair, generated, removed, cross,
                      cancelled or looked, then the fields of its kind:
  64 answer           message_number, refusal, place_mask, count
  65 trade            series, taker_side, price, quantity, taker_id, maker_id
  66 pair             complex_id, net, quantity
  67 generated        complex_id, series, side, price, displayed, quantity
  68 removed          complex_id, series, side, cause
  70 cross            taker_id, maker_id, taker_net, quantity
  71 cancelled        id, quantity
  72 looked           looked_at

venue sheet --json: a record on each line, after the number of its message as message.
venue sheet --csv: the same as values between commas. The first line has the names; a
record has nothing in the columns that its kind has not.

venue explain --json: a message on each line:

  message, text       its number, and the message as venue decode writes it
  kind, name          1 to 11, and order (1, 9), complex (2, 10), cancel, away, status,
                      sweep, increment, percent or limited, then the fields of its kind:
  order               id, series, side, price, quantity; of kind 9 shown_quantity
  complex             id, series1, side1, series2, side2, class, N, quantity; of kind 10
                      ratio1, ratio2
  cancel              id
  away                series, bid, offer
  status              series, status
  increment           series, increment, edition
  percent             percent, edition
  limited             n
                      bytes that are no message have no kind, the name raw, and bytes in
                      hexadecimal
  records             a list of its records, each with words, and figures where they decided
  more                a list of what the records do not tell, each with about (shows,
                      setting, not_made, not_generated, without), orders (ids) and words

The figures of a removal (68) by a settling, and of refusal 4:

  cause 1             price, displayed, increment, best (the best regular of its side)
  cause 5             N, O, highest (the highest net in band), percent; O and highest are
                      null where a market best is missing
  cause 2             failed (a list of clear, net, size), series and side (those that the
                      other leg takes), best and size (its best regular price), hider_id and
                      hider_price (of the legging order that hides it), net, N, quantity;
                      null where there is none
  cause 6             not_open (a list of series)
  refusal 4           field (by its name above), value, range (in words), low and high
                      where the range has them

venue audit --json: objects of a type each, the verdict last:

  order               a complex order: id, entered, paired, crossed, cancelled, open,
                      contracts (a list by series), ratio1, ratio2, agrees
  reserve             an order that was to show a part: id, entered, shown_quantity,
                      traded, cancelled, open, shown
  disagreement        message, line (of the sheet), order (whose sums), expected (a record),
                      found (a line); null where there is none; words
  edition             message, series and increment or percent, edition
  series              series, generated, most_in_256
  moments             regular_trades, legging_trades, complex_trades, crosses
  verdict             agrees, messages, answered (up to where the sheet ends), records,
                      differing (messages), extra_answers, orders (whose sums do not
                      agree), words
";
