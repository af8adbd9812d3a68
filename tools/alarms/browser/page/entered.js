// A browser was let in: its key is kept for this origin, and goes from the page together with the address that let it
// in.
try {
  localStorage.setItem("key", document.body.dataset.key ?? "");
} catch (error) {
  // a browser that keeps nothing isn't signed in, and the list says so
}
location.replace("/");
