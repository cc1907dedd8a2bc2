// Lists the entries whose names contain the text of the search field, names that begin with it first.
const field = document.getElementById("search");
const list = document.getElementById("found");

function matching(text) {
    const begins = entries.filter(([name]) => name.toLowerCase().startsWith(text));
    const contain = entries.filter(([name]) => name.toLowerCase().indexOf(text) > 0);
    return [...begins, ...contain].slice(0, 40);
}

function show() {
    const text = field.value.trim().toLowerCase();
    list.replaceChildren(...(text ? matching(text) : []).map(([name, kind, address]) => {
        const item = document.createElement("li");
        const link = document.createElement("a");
        link.href = top_of_pages + address;
        link.textContent = name;
        item.append(link, ` ${kind}`);
        return item;
    }));
    list.hidden = !list.children.length;
}

field.addEventListener("input", show);
