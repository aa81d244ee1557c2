// The requests of this page, and what it reads of each reply. A check compares all of it with docs/openapi.yaml.
/** The keys whose values are cents: BigInts all over the console, since a balance can be greater than 2^53. */
export const CENTS = "amount balance credit held_value lacking queued_value settling_value short sum value";
/** The keys whose values are other numbers. (`code` is a number in a refusal, and a text in an account.) */
export const NUMBERS = "code count held mark next_mark next_order next_posting number participants place queued"
  + " rejected row settling tables";
export const REFUSAL = "code count first name row";
/** By name: the method, the path, the keys that are sent, and those that are read; of CSV its columns. */
export const ROUTES = {
  status: ["GET", "/desk/status", "", "automatic held held_value next_mark next_order next_posting participants phase"
    + " sum tables version"],
  accounts: ["GET", "/desk/accounts", "", "accounts balance code credit date lacking name phase queued queued_value"],
  queues: ["GET", "/desk/queues", "", "queues code first amount number reference to queued queued_value receivers"
    + " settling settling_value short"],
  report: ["GET", "/desk/report/{date}", "", ""],
  statement: ["GET", "/desk/statements/{code}/{date}", "", ""],
  orders: ["GET", "/desk/orders/{date}", "", "number sender reference receiver amount due state mark"],
  marks: ["GET", "/desk/marks/{date}", "", "number count value"],
  queue: ["GET", "/desk/queue/{code}", "", "orders place number reference to amount"],
  held: ["GET", "/desk/held/{code}", "", "orders due number reference to amount"],
  order: ["GET", "/desk/orders/{code}/{reference}", "", "number reference to amount date due state mark"],
  open: ["POST", "/desk/open", "automatic date", "answer auto count mark value"],
  resolve: ["POST", "/desk/resolve", "", "answer count mark value"],
  cutoff: ["POST", "/desk/cutoff", "date", "answer"],
  close: ["POST", "/desk/close", "date", "answer rejected"],
  post: ["POST", "/desk/post", "cents code reference", "answer auto count mark number value"],
  credit: ["POST", "/desk/credit", "code credit", "answer auto count mark value"],
  withdraw: ["POST", "/desk/orders/{code}/{reference}/withdraw", "", "answer auto count mark number value"],
  batch: ["POST", "/desk/batches/{code}", "", "reference result number detail"],
};

export const pathOf = (name, values) =>
  ROUTES[name][1].replace(/\{(\w+)\}/g, (_, key) => encodeURIComponent(values[key]));
