"""Lines of `edit` in places where a rule has little room, with answers that were worked out by hand; `edit_scripts.py` tries them."""
from rows.texts import CURL, TREFOIL, links

HOPF = "PD[X[4,1,3,2], X[2,3,1,4]]"
TWO_CURLS = "PD[X[1,1,2,2], X[3,3,4,4]]"
CIRCLE_OVER_CIRCLE = "PD[X[1,4,2,3], X[2,4,1,3]]"
CIRCLE_OVER_CURL = "PD[X[1,6,2,5], X[4,6,1,5], X[2,4,3,3]]"
CIRCLE_WITH_CURL = "PD[X[5,1,6,4], X[6,3,5,4], X[1,3,2,2]]"
HOPF_WITH_CURL = "PD[X[5,2,6,1], X[3,3,4,2], X[4,5,1,6]]"
TWO_TRIANGLES = "PD[X[4,2,5,1], X[3,6,4,1], X[5,2,6,3]]"
UNLINK = "PD[X[3,2,4,1], X[4,2,3,1]]"
FINGERED_UNLINK = "PD[X[5,1,6,4], X[8,3,5,4], X[6,1,7,2], X[7,3,8,2]]"
TWISTED_LOOP = "PD[X[4,2,1,1], X[3,2,4,3]]"
TWICE_CURLED_LOOP = "PD[X[4,2,1,1], X[3,3,4,2]]"
CURL_AND_LOOP = "PD[X[1,1,2,2], Loop[3]]"
CURL_AND_HOPF = "PD[X[1,1,2,2], X[6,3,5,4], X[4,5,3,6]]"


def with_more(text, item):
    """The text with an item more."""
    return text[:-1] + ", " + item + "]"


# What is there, a code, a line, and its answer.
ROWS = [
    ("a curl, under first, positive", CURL, "r1 add 1 under plus", "PD[X[3, 1, 4, 4], X[1, 3, 2, 2]]"),
    ("a curl, under first, negative", CURL, "r1 add 1 under minus", "PD[X[3, 1, 4, 4], X[1, 2, 2, 3]]"),
    ("a curl, over first, positive", CURL, "r1 add 1 over plus", "PD[X[3, 1, 4, 4], X[2, 2, 3, 1]]"),
    ("a curl, over first, negative", CURL, "r1 add 1 over minus", "PD[X[3, 1, 4, 4], X[2, 1, 3, 2]]"),
    ("a curl on a circle of two over arcs", UNLINK, "r1 add 1 under plus", "PD[X[5, 4, 6, 3], X[6, 4, 5, 1], X[1, 3, 2, 2]]"),
    ("a curl that leaves a loop", CURL, "r1 drop 1", "PD[Loop[1]]"),
    ("a negative curl that leaves a loop", "PD[X[1,2,2,1]]", "r1 drop 1", "PD[Loop[1]]"),
    ("a curl over first that leaves a loop", "PD[X[2,2,1,1]]", "r1 drop 1", "PD[Loop[1]]"),
    ("a negative curl over first that leaves a loop", "PD[X[2,1,1,2]]", "r1 drop 1", "PD[Loop[1]]"),
    ("a curl that leaves a second loop", CURL_AND_LOOP, "r1 drop 1", "PD[Loop[1], Loop[2]]"),
    ("a curl that leaves a loop beside a Hopf link", CURL_AND_HOPF, "r1 drop 1", "PD[X[4, 1, 3, 2], X[2, 3, 1, 4], Loop[5]]"),
    ("a curl at one end of a twisted loop", TWISTED_LOOP, "r1 drop 1", "PD[X[2, 1, 1, 2]]"),
    ("a curl whose circle of two over arcs turns", CIRCLE_WITH_CURL, "r1 drop 3", "PD[X[3, 2, 4, 1], X[4, 2, 3, 1]]"),
    ("a finger whose circle of two over arcs turns", FINGERED_UNLINK, "r2 drop 3 4", "PD[X[3, 2, 4, 1], X[4, 2, 3, 1]]"),
    ("a slide whose circle of two over arcs turns", CIRCLE_OVER_CURL, "r3 1 2 3", "PD[X[2, 6, 3, 5], X[3, 6, 4, 5], X[1, 1, 2, 4]]"),
    ("a bigon of two whole components", CIRCLE_OVER_CIRCLE, "r2 drop 1 2", "PD[Loop[1], Loop[2]]"),
    ("a bigon of a whole component and an arc", CIRCLE_OVER_CURL, "r2 drop 1 2", "PD[X[1, 1, 2, 2], Loop[3]]"),
    ("a bigon named the other way", CIRCLE_OVER_CURL, "r2 drop 2 1", "PD[X[1, 1, 2, 2], Loop[3]]"),
    ("a bigon of one component that leaves a loop", TWISTED_LOOP, "r2 drop 1 2", "PD[Loop[1]]"),
    ("a bigon that no strand lies over", HOPF, "r2 drop 1 2", "refused no bigon at 1 2"),
    ("a bigon of one crossing", CURL, "r2 drop 1 1", "refused no bigon at 1 1"),
    ("a face of three darts at two crossings", TWICE_CURLED_LOOP, "r3 1 2 2", "refused no triangle at 1 2 2"),
    ("a face of three darts at two crossings, as a bigon", TWICE_CURLED_LOOP, "r2 drop 1 2", "refused no bigon at 1 2"),
    ("a triangle of one crossing", CURL, "r3 1 1 1", "refused no triangle at 1 1 1"),
    ("a triangle where an outer arc joins two strands", HOPF_WITH_CURL, "r3 1 2 3", "PD[X[6, 3, 5, 2], X[4, 2, 1, 1], X[3, 6, 4, 5]]"),
    ("the first of two triangles", TWO_TRIANGLES, "r3 1 2 3", "PD[X[3, 3, 4, 2], X[4, 5, 5, 6], X[6, 1, 1, 2]]"),
    ("the first of two triangles, named from its third", TWO_TRIANGLES, "r3 3 1 2", "PD[X[3, 3, 4, 2], X[4, 5, 5, 6], X[6, 1, 1, 2]]"),
    ("two triangles without heights", TREFOIL, "r3 3 2 1", "refused heights"),
    ("a finger through the face", CURL, "r2 add 1 left 2 right", "PD[X[3, 1, 4, 6], X[4, 1, 5, 2], X[5, 3, 6, 2]]"),
    ("a finger through another face", CURL, "r2 add 1 left 2 left", "refused genus faces 3 wanted 5"),
    ("a finger to another piece", TWO_CURLS, "r2 add 1 left 3 left", "PD[X[3, 1, 4, 4], X[7, 5, 8, 8], X[6, 2, 7, 1], X[5, 2, 6, 3]]"),
    ("a finger of one arc", CURL, "r2 add 2 left 2 left", "refused same arc 2"),
    ("a finger of one loop", CURL_AND_LOOP, "r2 add 3 left 3 right", "refused loop 3"),
    ("a finger of a loop over an arc", CURL_AND_LOOP, "r2 add 3 left 1 left", "refused loop 3"),
    ("a finger over a loop", CURL_AND_LOOP, "r2 add 1 left 3 left", "refused loop 3"),
    ("a finger of a loop over no arc", CURL_AND_LOOP, "r2 add 3 left 4 left", "refused no arc 4"),
    ("a finger of no arc over no arc", CURL_AND_LOOP, "r2 add 4 left 0 left", "refused no arc 4"),
    ("a finger over arc 0", CURL_AND_LOOP, "r2 add 1 left 0 left", "refused no arc 0"),
    ("a curl on a loop", CURL_AND_LOOP, "r1 add 3 over minus", "refused loop 3"),
    ("a curl on arc 255", CURL_AND_LOOP, "r1 add 255 over minus", "refused no arc 255"),
    ("a curl on no crossings", "PD[]", "r1 add 1 over minus", "refused no arc 1"),
    ("a drop of crossing 0", CURL, "r1 drop 0", "refused no crossing 0"),
    ("a drop of no crossing", "PD[Loop[1]]", "r1 drop 1", "refused no crossing 1"),
    ("a bigon of two crossings that there are not", CURL, "r2 drop 0 9", "refused no crossing 0"),
    ("a bigon of a crossing and one that there is not", CURL, "r2 drop 1 2", "refused no crossing 2"),
    ("a triangle of a crossing twice and one that there is not", CURL, "r3 1 1 9", "refused no crossing 9"),
    ("crossing 20", links(19), "r1 add 38 under plus", with_more(links(18), "X[37, 37, 38, 40], X[38, 40, 39, 39]")),
    ("crossing 21", links(20), "r1 add 1 under plus", "refused crossings 21 of 20"),
    ("crossing 21 on a loop", with_more(links(20), "Loop[1]"), "r1 add 41 under plus", "refused crossings 21 of 20"),
    ("crossing 21 on no arc", with_more(links(20), "Loop[1]"), "r1 add 42 under plus", "refused no arc 42"),
    ("the crossings 20 and 21", links(19), "r2 add 1 left 3 left", "refused crossings 21 of 20"),
    ("the crossings 20 and 21 on one arc", links(19), "r2 add 1 left 1 left", "refused crossings 21 of 20"),
    ("the crossings 21 and 22", links(20), "r2 add 40 left 1 right", "refused crossings 22 of 20"),
    ("the crossings 21 and 22 on a loop", with_more(links(20), "Loop[1]"), "r2 add 41 left 1 right", "refused crossings 22 of 20"),
    ("the crossings 20 and 21 on a loop", with_more(links(19), "Loop[1]"), "r2 add 1 left 39 right", "refused crossings 21 of 20"),
    ("the last of twenty curls", links(20), "r1 drop 20", with_more(links(19), "Loop[39]")),
]

# Codes of one link before and after a move.
EQUAL_LINKS = [
    (HOPF_WITH_CURL, "PD[X[6,3,5,2], X[4,2,1,1], X[3,6,4,5]]"),
    (CURL, "PD[X[3, 1, 4, 6], X[4, 1, 5, 2], X[5, 3, 6, 2]]"),
]
