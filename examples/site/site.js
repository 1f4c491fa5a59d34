$(function () {
  $('.menu').on('click', 'a', function () {
    $(this).addClass('chosen');
  });
  $('.bread').click(function () {
    $(this).append('<p class="note">Only today</p>');
  });
});
