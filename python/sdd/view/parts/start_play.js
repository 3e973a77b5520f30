// A page that is served. The token stands behind # in the printed address, and is kept for a reload.

async function play() {
  const wishes = wishesOf(location.hash), token = wishes.get("token") || sessionStorage.getItem("token") || "";
  sessionStorage.setItem("token", token);
  const view = begin(JSON.parse(byId("data").textContent), wishes);
  view.play = new Play(view, token);
  if (await view.play.look()) view.go(view.run.count);
  return view;
}

let view = null;
play().then(made => { view = made; });
