/* dlib's max_cost_assignment on a dense problem: its text on standard input. */
#include "text.h"
#include <dlib/matrix.h>
#include <dlib/optimization/max_cost_assignment.h>

int main() {
    Text text(false);
    Watch watch;
    dlib::matrix<int64_t> gains(text.n, text.n);
    for (const Pair &pair : text.pairs) gains(pair.person, pair.object) = -pair.cost;
    std::vector<long> objects = dlib::max_cost_assignment(gains);
    watch.tell(-dlib::assignment_cost(gains, objects));
}
