// A page that was written to a file: the run stands in it.

const view = begin(JSON.parse(byId("data").textContent), wishesOf(location.hash));
view.go(+(wishesOf(location.hash).get("e") || 0));
