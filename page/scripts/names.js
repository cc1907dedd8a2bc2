// The only global variable, and the names in sentences: those of the Python package. The words for numbers and codes are the
// library's.
"use strict";
var Wolfaren = {};

Wolfaren.names = (function () {
    const layerWords = ["", "the IP header", "the IPv4 header", "the IPv4 packet", "the authentication header", "the IPv6 header", "the IPv6 packet",
        "the extension header", "the hop-by-hop options header", "the destination options header", "the routing header", "the fragment header"];
    const fragments = ["", "atomic", "first", "middle", "last"];
    const lengthSources = ["", "", "the total length", "the payload length"];
    const styles = { 0: "hop", 43: "routing", 44: "fragment", 51: "authentication", 60: "destination" };
    const places = ["hop-by-hop", "destination-options", "routing", "fragment", "authentication", "final destination-options"];

    function bytes(count) {
        return count.toLocaleString("en") + (count === 1 ? " byte" : " bytes");
    }
    return { layerWords, fragments, lengthSources, styles, places, bytes };
})();
